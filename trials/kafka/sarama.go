// sarama against the program: plain and idempotent producers, readers of both isolation levels, groups.
//
//	go run sarama.go ADDRESS
package main

import (
	"context"
	"fmt"
	"os"
	"time"

	"github.com/Shopify/sarama"
)

func must(err error) {
	if err != nil {
		fmt.Println("FAILED", err)
		os.Exit(1)
	}
}

func produce(address string, config *sarama.Config, topic string, first, count int) {
	config.Producer.Return.Successes = true
	config.Producer.Partitioner = sarama.NewManualPartitioner
	producer, err := sarama.NewSyncProducer([]string{address}, config)
	must(err)
	for n := first; n < first+count; n++ {
		_, offset, err := producer.SendMessage(&sarama.ProducerMessage{
			Topic: topic, Partition: 0, Key: sarama.StringEncoder(fmt.Sprint("k", n)),
			Value:   sarama.StringEncoder(fmt.Sprint("v", n)),
			Headers: []sarama.RecordHeader{{Key: []byte("n"), Value: []byte(fmt.Sprint(n))}},
		})
		must(err)
		if offset != int64(n) {
			fmt.Println("FAILED offset", offset, "of record", n)
			os.Exit(1)
		}
	}
	must(producer.Close())
}

func consume(address string, config *sarama.Config, topic string, count int) {
	consumer, err := sarama.NewConsumer([]string{address}, config)
	must(err)
	partition, err := consumer.ConsumePartition(topic, 0, sarama.OffsetOldest)
	must(err)
	for n := 0; n < count; n++ {
		it := <-partition.Messages()
		if it.Offset != int64(n) || string(it.Value) != fmt.Sprint("v", n) ||
			string(it.Key) != fmt.Sprint("k", n) || string(it.Headers[0].Value) != fmt.Sprint(n) {
			fmt.Println("FAILED record", n, it.Offset, string(it.Value))
			os.Exit(1)
		}
	}
	must(partition.Close())
	must(consumer.Close())
}

// A member of a group, which marks each record that it reads and counts down.
type member struct {
	left int
	done context.CancelFunc
}

func (*member) Setup(sarama.ConsumerGroupSession) error   { return nil }
func (*member) Cleanup(sarama.ConsumerGroupSession) error { return nil }

func (it *member) ConsumeClaim(session sarama.ConsumerGroupSession, claim sarama.ConsumerGroupClaim) error {
	for message := range claim.Messages() {
		session.MarkMessage(message, "")
		it.left--
		if it.left == 0 {
			it.done()
		}
	}
	return nil
}

// A group of one member reads so many records, and its offset is committed.
func group(address string, version sarama.KafkaVersion, topic string, count int) {
	config := sarama.NewConfig()
	config.Version = version
	config.Consumer.Offsets.Initial = sarama.OffsetOldest
	name := fmt.Sprint("group-", version)
	group, err := sarama.NewConsumerGroup([]string{address}, name, config)
	must(err)
	ctx, cancel := context.WithTimeout(context.Background(), 30*time.Second)
	it := &member{count, cancel}
	for ctx.Err() == nil {
		must(group.Consume(ctx, []string{topic}, it))
	}
	must(group.Close())
	if it.left != 0 {
		must(fmt.Errorf("%d records not read", it.left))
	}
	client, err := sarama.NewClient([]string{address}, config)
	must(err)
	offsets, err := sarama.NewOffsetManagerFromClient(name, client)
	must(err)
	partition, err := offsets.ManagePartition(topic, 0)
	must(err)
	if next, _ := partition.NextOffset(); next != int64(count) {
		must(fmt.Errorf("committed %d", next))
	}
	must(partition.Close())
	must(offsets.Close())
	must(client.Close())
}

func main() {
	address := os.Args[1]
	for _, version := range []sarama.KafkaVersion{sarama.V0_11_0_0, sarama.V2_1_0_0} {
		topic := fmt.Sprint("sarama-", version)
		plain := sarama.NewConfig()
		plain.Version = version
		produce(address, plain, topic, 0, 500)
		idempotent := sarama.NewConfig()
		idempotent.Version = version
		idempotent.Producer.Idempotent = true
		idempotent.Producer.RequiredAcks = sarama.WaitForAll
		idempotent.Net.MaxOpenRequests = 1
		produce(address, idempotent, topic, 500, 500)
		for _, level := range []sarama.IsolationLevel{sarama.ReadUncommitted, sarama.ReadCommitted} {
			reader := sarama.NewConfig()
			reader.Version = version
			reader.Consumer.IsolationLevel = level
			consume(address, reader, topic, 1000)
		}
		group(address, version, topic, 1000)
		fmt.Println("ok sarama as Kafka", version)
	}
}
