// Receives packets of Opus or VP8 through pion: rtp.Packet and the SampleBuilder. pion KIND RUNS. 64 packets are held.
// It prints the nanoseconds of processor time of a packet, as the least of several runs, and, with `idle` or `held` for KIND, bytes.
package main

import (
	"fmt"
	"os"
	"runtime"
	"strconv"
	"syscall"

	"github.com/pion/rtp"
	"github.com/pion/rtp/codecs"
	"github.com/pion/webrtc/v3/pkg/media/samplebuilder"
)

const (
	rounds  = 2176
	streams = 100
	held    = 64
)

type stream struct {
	builder *samplebuilder.SampleBuilder
	frame   int // packets of a frame
	payload int
}

func newStream(kind string) *stream {
	if kind == "vp8" {
		return &stream{samplebuilder.New(1000, &codecs.VP8Packet{}, 90000), 17, 1200}
	}
	return &stream{samplebuilder.New(1000, &codecs.OpusPacket{}, 48000), 1, 120}
}

// datagram returns the packet with this number: a reader of a socket has its own memory for each, which the builder keeps.
func (s *stream) datagram(number int) []byte {
	bytes := make([]byte, 12+s.payload)
	bytes[0], bytes[1], bytes[2], bytes[3], bytes[11] = 0x80, 96, byte(number>>8), byte(number), 7
	time := number / s.frame * 960
	bytes[4], bytes[5], bytes[6], bytes[7] = byte(time>>24), byte(time>>16), byte(time>>8), byte(time)
	if s.frame > 1 {
		if number%s.frame == s.frame-1 {
			bytes[1] |= 0x80
		}
		if number%s.frame == 0 {
			bytes[12] = 0x10
		}
	}
	return bytes
}

func (s *stream) receive(number int) {
	packet := &rtp.Packet{}
	if err := packet.Unmarshal(s.datagram(number)); err != nil {
		panic(err)
	}
	s.builder.Push(packet)
}

// processorTime returns the nanoseconds that all threads of the process took.
func processorTime() int64 {
	var used syscall.Rusage
	if err := syscall.Getrusage(syscall.RUSAGE_SELF, &used); err != nil {
		panic(err)
	}
	return used.Utime.Nano() + used.Stime.Nano()
}

func heap() uint64 {
	runtime.GC()
	var memory runtime.MemStats
	runtime.ReadMemStats(&memory)
	return memory.HeapAlloc
}

// printMemory prints the bytes of a stream that got one packet, or of each further packet that waits behind a missing one.
func printMemory(kind string) {
	all := make([]*stream, 0, streams)
	before := heap()
	for i := 0; i < streams; i++ {
		one := newStream("opus")
		one.receive(0)
		all = append(all, one)
	}
	between := heap()
	if kind == "idle" {
		fmt.Println((between - before) / streams)
	} else {
		for _, one := range all {
			for number := 2; number < 130; number++ {
				one.receive(number)
			}
		}
		fmt.Println((heap() - between) / streams / 128)
	}
	runtime.KeepAlive(all)
}

func main() {
	kind := os.Args[1]
	if kind == "idle" || kind == "held" {
		printMemory(kind)
		return
	}
	runs, err := strconv.Atoi(os.Args[2])
	if err != nil {
		panic(err)
	}
	one := newStream(kind)
	place := 0
	for ; place < held; place++ {
		one.receive(place)
	}
	least := 0.0
	for run := 0; run < runs; run++ {
		units := 0
		start := processorTime()
		for i := 0; i < rounds; i++ {
			one.receive(place)
			place++
			if place%one.frame == 0 && one.builder.Pop() != nil {
				units++
			}
		}
		took := float64(processorTime()-start) / rounds
		if units < rounds/one.frame-1 {
			panic("units are missing")
		}
		if run == 0 || took < least {
			least = took
		}
	}
	fmt.Printf("%.1f\n", least)
}
