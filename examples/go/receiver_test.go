package codec_payload

import (
	"bytes"
	"encoding/binary"
	"errors"
	"math/rand"
	"testing"
)

// packet is a packet of VP8: the fixed header (RFC 3550, section 5.1) and a descriptor of one byte (RFC 7741, section 4.2).
func packet(number uint16, time uint32, first, last bool, body []byte) []byte {
	out := []byte{0x80, 96, 0, 0, 0, 0, 0, 0, 0, 0, 0, 7, 0}
	if last {
		out[1] |= 0x80
	}
	binary.BigEndian.PutUint16(out[2:], number)
	binary.BigEndian.PutUint32(out[4:], time)
	if first {
		out[12] = 0x10
	}
	return append(out, body...)
}

// Frames of three packets over a network that loses a tenth of them and sends what is requested again: each frame comes out, in
// order.
func TestLossesWithRequests(t *testing.T) {
	r, err := New(VP8, 90000, 96, 7, true)
	if err != nil {
		t.Fatal(err)
	}
	defer r.Close()
	rng := rand.New(rand.NewSource(1))
	var sent [][]byte
	var got []Frame
	kept := map[uint16][]byte{}
	take := func(now uint64) {
		frames, err := r.Frames(now)
		if err != nil {
			t.Fatal(err)
		}
		got = append(got, frames...)
	}
	number, lost := uint16(65000), 0
	for f := 0; f < 500; f++ {
		now := uint64(f * 33)
		body := make([]byte, 3000)
		rng.Read(body)
		copy(body, []byte{0x10, 0, 0, 0x9d, 1, 0x2a}) // a keyframe (RFC 6386, section 9.1)
		sent = append(sent, body)
		for part := 0; part < 3; part++ {
			datagram := packet(number, uint32(f*3000), part == 0, part == 2, body[part*1000:part*1000+1000])
			kept[number] = datagram
			number++
			if rng.Intn(10) == 0 {
				lost++
			} else if err := r.Receive(now, datagram); err != nil {
				t.Fatal(err)
			}
			take(now)
		}
		missing, err := r.Missing()
		if err != nil {
			t.Fatal(err)
		}
		for _, one := range missing {
			if err := r.Receive(now+20, kept[one]); err != nil {
				t.Fatal(err)
			}
		}
		take(now + 20)
	}
	if err := r.Finish(); err != nil {
		t.Fatal(err)
	}
	take(1 << 40)
	if lost < 100 || len(got) < len(sent)-1 {
		t.Fatalf("%d packets lost, %d of %d frames", lost, len(got), len(sent))
	}
	for place, frame := range got {
		if !bytes.Equal(frame.Data, sent[place]) || !frame.Contiguous || !frame.IsKeyframe {
			t.Fatalf("frame %d is not the one that was sent", place)
		}
	}
}

// No bytes end the program, and what is no RTP packet is an error with a text.
func TestAnyBytes(t *testing.T) {
	r, err := New(VP8, 90000, 96, 7, false)
	if err != nil {
		t.Fatal(err)
	}
	defer r.Close()
	rng := rand.New(rand.NewSource(2))
	refused := 0
	for now := uint64(0); now < 5000; now++ {
		datagram := packet(uint16(now), uint32(now)*3000, true, true, []byte{1, 2, 3})
		if len(datagram) > 0 && rng.Intn(2) == 0 {
			datagram[rng.Intn(len(datagram))] = byte(rng.Intn(256))
		}
		datagram = datagram[:rng.Intn(len(datagram)+1)]
		if err := r.Receive(now, datagram); err != nil {
			var status Error
			if !errors.As(err, &status) || status.Error() == "" {
				t.Fatal(err)
			}
			refused++
		}
		if _, err := r.Frames(now); err != nil {
			t.Fatal(err)
		}
	}
	if refused < 1000 {
		t.Fatal(refused)
	}
}

func TestWrongSettings(t *testing.T) {
	if _, err := New(VP8, 0, 96, 7, false); err == nil {
		t.Fatal("a rate of 0")
	}
}
