// The units of a schedule through pion's SampleBuilder: pion KIND. It has no clock: a packet waits for the number of packets that it is
// made with, here 10, as in pion's example that saves to WebM. Each packet is pushed, and then all samples are popped.
package main

import (
	"bufio"
	"encoding/hex"
	"fmt"
	"os"
	"strings"

	"github.com/pion/rtp"
	"github.com/pion/rtp/codecs"
	"github.com/pion/webrtc/v3/pkg/media/samplebuilder"
)

const maxLate = 10

func main() {
	builder := samplebuilder.New(maxLate, &codecs.OpusPacket{}, 48000)
	if os.Args[1] == "vp8" {
		builder = samplebuilder.New(maxLate, &codecs.VP8Packet{}, 90000)
	}
	lines := bufio.NewScanner(os.Stdin)
	for lines.Scan() {
		at, digits, _ := strings.Cut(lines.Text(), " ")
		bytes, err := hex.DecodeString(digits)
		if err != nil {
			panic(err)
		}
		packet := &rtp.Packet{}
		if err := packet.Unmarshal(bytes); err != nil {
			panic(err)
		}
		builder.Push(packet)
		for sample := builder.Pop(); sample != nil; sample = builder.Pop() {
			fmt.Printf("%s %x\n", at, sample.Data)
		}
	}
}
