// What sarama sends: kafka_clients.py builds it with Debian's packages and runs it against a server
// that records.
//
//	kafka_sarama ADDRESS VERSION
//
// Produces a record to the topic t, plainly and idempotently, reads it from the partition, with
// committed records alone, and reads it as a member of the group g, which commits its offset.
package main

import (
	"context"
	"fmt"
	"os"
	"time"

	"github.com/Shopify/sarama"
)

func fail(what string, err error) {
	fmt.Println(what, err)
	os.Exit(1)
}

func produce(address string, config *sarama.Config) {
	producer, err := sarama.NewSyncProducer([]string{address}, config)
	if err != nil {
		fail("producer", err)
	}
	message := &sarama.ProducerMessage{Topic: "t", Value: sarama.StringEncoder("value")}
	if _, _, err = producer.SendMessage(message); err != nil {
		fail("send", err)
	}
	if err = producer.Close(); err != nil {
		fail("close", err)
	}
}

func consume(address string, config *sarama.Config) {
	consumer, err := sarama.NewConsumer([]string{address}, config)
	if err != nil {
		fail("consumer", err)
	}
	partition, err := consumer.ConsumePartition("t", 0, sarama.OffsetOldest)
	if err != nil {
		fail("partition", err)
	}
	select {
	case <-partition.Messages():
	case <-time.After(10 * time.Second):
		fail("nothing was read", nil)
	}
	if err = consumer.Close(); err != nil {
		fail("close", err)
	}
}

// A member that marks the first record that it gets.
type member struct {
	done chan bool
}

func (member) Setup(sarama.ConsumerGroupSession) error   { return nil }
func (member) Cleanup(sarama.ConsumerGroupSession) error { return nil }

func (m member) ConsumeClaim(session sarama.ConsumerGroupSession,
	claim sarama.ConsumerGroupClaim) error {
	for message := range claim.Messages() {
		session.MarkMessage(message, "")
		select {
		case m.done <- true:
		default:
		}
	}
	return nil
}

func join(address string, config *sarama.Config) {
	group, err := sarama.NewConsumerGroup([]string{address}, "g", config)
	if err != nil {
		fail("group", err)
	}
	m := member{done: make(chan bool, 1)}
	ctx, cancel := context.WithCancel(context.Background())
	ended := make(chan error, 1)
	go func() { ended <- group.Consume(ctx, []string{"t"}, m) }()
	select {
	case <-m.done:
	case <-time.After(15 * time.Second):
		fail("nothing was read in a group", nil)
	}
	time.Sleep(time.Second)
	cancel()
	if err = <-ended; err != nil {
		fail("consume", err)
	}
	if err = group.Close(); err != nil {
		fail("close", err)
	}
}

func main() {
	if len(os.Args) != 3 {
		fail("usage: kafka_sarama ADDRESS VERSION", nil)
	}
	version, err := sarama.ParseKafkaVersion(os.Args[2])
	if err != nil {
		fail("version", err)
	}
	config := sarama.NewConfig()
	config.Version = version
	config.Producer.RequiredAcks = sarama.WaitForAll
	config.Producer.Return.Successes = true
	config.Consumer.Offsets.Initial = sarama.OffsetOldest
	config.Consumer.Offsets.CommitInterval = 200 * time.Millisecond
	config.Consumer.Group.Heartbeat.Interval = 200 * time.Millisecond
	produce(os.Args[1], config)
	config.Producer.Idempotent = true
	config.Net.MaxOpenRequests = 1
	produce(os.Args[1], config)
	config.Consumer.IsolationLevel = sarama.ReadCommitted
	consume(os.Args[1], config)
	join(os.Args[1], config)
}
