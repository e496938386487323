// Transport-wide feedback of pion's interceptor, for tests/vectors/feedback.py:
//
//	feedback_peers write    records random arrivals, and prints the packets of the recorder as hexadecimal digits
//	feedback_peers read     reads such lines, and prints what pion's RTCP reads in each: the SSRCs of sender and media, the first
//	                        number, the reference time, the count, and for each number its delta in quarters of a millisecond, or -
//
// Debian: golang-go, golang-github-pion-interceptor-dev, golang-github-pion-rtcp-dev.
package main

import (
	"bufio"
	"encoding/hex"
	"fmt"
	"log"
	"math/rand"
	"os"
	"strings"

	"github.com/pion/interceptor/pkg/twcc"
	"github.com/pion/rtcp"
)

const quarter = 250 // microseconds

// Mostly as a sender of video: bursts, some of the packets lost or late.
func arrivals(random *rand.Rand, recorder *twcc.Recorder, first uint16, start int64, lost, late int) {
	number, now := first, start
	for left := 2 + random.Intn(60); left > 0; left-- {
		now += quarter * []int64{0, 0, 1, 3, 20, 80, 133, 300, 2000, 30000}[random.Intn(10)]
		switch {
		case random.Intn(100) < lost:
			number += uint16(1 + random.Intn(2))
		case random.Intn(200) < lost:
			number += uint16(1 + random.Intn(30))
		case random.Intn(100) < late && left > 1:
			recorder.Record(7, number+1, now)
			now += quarter * int64(random.Intn(50))
			recorder.Record(7, number, now)
			number += 2
			continue
		}
		recorder.Record(7, number, now)
		number++
	}
}

func write() {
	random, out := rand.New(rand.NewSource(1)), bufio.NewWriter(os.Stdout)
	defer out.Flush()
	recorder := twcc.NewRecorder(1)
	// The numbers wrap in the first packets, and the reference time in none.
	number, now := uint16(65_520), int64(1_000_000)
	for count := 0; count < 40; count++ {
		lost, late := []int{0, 2, 10, 40}[random.Intn(4)], []int{0, 0, 5, 20}[random.Intn(4)]
		if count == 0 {
			lost, late = 0, 0
		}
		arrivals(random, recorder, number, now, lost, late)
		for _, packet := range recorder.BuildFeedbackPacket() {
			bytes, err := packet.Marshal()
			if err != nil {
				log.Fatal(err)
			}
			fmt.Fprintln(out, hex.EncodeToString(bytes))
		}
		number += uint16(random.Intn(3000))
		now += quarter * int64(random.Intn(1<<24))
	}
}

// The symbols of the chunks, without those behind the count.
func symbols(packet *rtcp.TransportLayerCC) []uint16 {
	var found []uint16
	for _, chunk := range packet.PacketChunks {
		switch chunk := chunk.(type) {
		case *rtcp.RunLengthChunk:
			for left := chunk.RunLength; left > 0; left-- {
				found = append(found, chunk.PacketStatusSymbol)
			}
		case *rtcp.StatusVectorChunk:
			found = append(found, chunk.SymbolList...)
		}
	}
	return found[:packet.PacketStatusCount]
}

func read(line string) string {
	bytes, err := hex.DecodeString(line)
	if err != nil {
		log.Fatal(err)
	}
	packet := new(rtcp.TransportLayerCC)
	if err := packet.Unmarshal(bytes); err != nil {
		log.Fatalf("%s: %v", line, err)
	}
	words := []string{fmt.Sprint(packet.SenderSSRC, " ", packet.MediaSSRC, " ", packet.BaseSequenceNumber, " ", packet.ReferenceTime,
		" ", packet.FbPktCount)}
	next := 0
	for _, symbol := range symbols(packet) {
		if symbol == rtcp.TypeTCCPacketNotReceived {
			words = append(words, "-")
			continue
		}
		words = append(words, fmt.Sprint(packet.RecvDeltas[next].Delta/quarter))
		next++
	}
	if next != len(packet.RecvDeltas) {
		log.Fatalf("%s: more deltas than packets", line)
	}
	return strings.Join(words, " ")
}

func main() {
	if len(os.Args) == 2 && os.Args[1] == "write" {
		write()
		return
	}
	lines := bufio.NewScanner(os.Stdin)
	for lines.Scan() {
		fmt.Println(read(lines.Text()))
	}
}
