// Wrong: an idempotent producer repeats no batch by itself, but a program that is started again reads the
// same bill again and pays it again: its mark was not committed yet.
//
// Found by Produce#1:kill-after. Fix: a transaction, which this version of sarama does not have, or a
// reader that knows doubles by a key.
//
//	./kx torture --in bills --out paid -- ./idempotent_only {bootstrap}
package main

import (
	"context"
	"log"
	"os"
	"time"

	"github.com/Shopify/sarama"
)

type payer struct {
	producer sarama.SyncProducer
}

func (payer) Setup(sarama.ConsumerGroupSession) error   { return nil }
func (payer) Cleanup(sarama.ConsumerGroupSession) error { return nil }

func (it payer) ConsumeClaim(session sarama.ConsumerGroupSession, claim sarama.ConsumerGroupClaim) error {
	for bill := range claim.Messages() {
		paid := &sarama.ProducerMessage{Topic: "paid", Value: sarama.StringEncoder("paid " + string(bill.Value))}
		if _, _, err := it.producer.SendMessage(paid); err != nil {
			return err
		}
		session.MarkMessage(bill, "")
	}
	return nil
}

func main() {
	config := sarama.NewConfig()
	config.Version = sarama.V0_11_0_0
	config.Consumer.IsolationLevel = sarama.ReadCommitted
	config.Consumer.Offsets.Initial = sarama.OffsetOldest
	config.Consumer.Offsets.CommitInterval = 100 * time.Millisecond
	config.Producer.Idempotent = true
	config.Producer.RequiredAcks = sarama.WaitForAll
	config.Producer.Return.Successes = true
	config.Net.MaxOpenRequests = 1
	address := os.Args[1:2]
	producer, err := sarama.NewSyncProducer(address, config)
	if err != nil {
		log.Fatal(err)
	}
	group, err := sarama.NewConsumerGroup(address, "payers", config)
	if err != nil {
		log.Fatal(err)
	}
	for {
		if err := group.Consume(context.Background(), []string{"bills"}, payer{producer}); err != nil {
			log.Fatal(err)
		}
	}
}
