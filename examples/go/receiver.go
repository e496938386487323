// Package codec_payload receives a stream of RTP by the library for C: datagrams in, whole frames in order out.
//
// It is an example to copy, not a product. The library is linked in from its archive, which `make` builds in the root of the
// repository.
package codec_payload

/*
#cgo CFLAGS: -I${SRCDIR}/../../include
#cgo LDFLAGS: ${SRCDIR}/../../c/out/libcodec_payload.a
#include <stdlib.h>
#include "codec_payload.h"

// What the calls write. It is C's memory, as the handle is: a handle must not move, and Go may move its own memory.
typedef struct {
    cpay_receiver receiver;
    cpay_outcome outcome;
    cpay_unit unit;
    const uint8_t *bytes;
    uint64_t missing[512];
    size_t count;
} stream;

static stream *stream_new(cpay_codec codec, uint32_t rate, uint8_t payload_type, uint32_t ssrc, cpay_purpose purpose,
                          cpay_status *status) {
    stream *it = calloc(1, sizeof *it);
    cpay_receiver_settings settings;
    if (!it) {
        *status = CPAY_OUT_OF_MEMORY;
        return NULL;
    }
    cpay_receiver_settings_init(&settings, codec, rate, payload_type, purpose);
    settings.has_ssrc = true;
    settings.ssrc = ssrc;
    *status = cpay_receiver_new(&it->receiver, &settings, NULL, 0);
    return it;
}

static void stream_free(stream *it) {
    cpay_receiver_free(&it->receiver);
    free(it);
}
*/
import "C"

import (
	"fmt"
	"runtime"
	"unsafe"
)

// Codec is a payload format of the library.
type Codec C.cpay_codec

// Some of them.
const (
	Opus Codec = C.CPAY_OPUS
	VP8  Codec = C.CPAY_VP8
	VP9  Codec = C.CPAY_VP9
	AV1  Codec = C.CPAY_AV1
)

// Error is a status of the library that is not success.
type Error C.cpay_status

func (e Error) Error() string { return C.GoString(C.cpay_status_text(C.cpay_status(e))) }

// Frame is a whole frame. Time, First and Last are extended: the low bits are those of the packets.
type Frame struct {
	Data                              []byte
	Time, First, Last                 uint64
	Contiguous, Decodable, IsKeyframe bool
}

// Receiver receives one stream. One goroutine at a time may use it.
type Receiver struct{ stream *C.stream }

// New makes a receiver of live media. With nack its frames wait for packets that are sent again.
func New(codec Codec, rate uint32, payloadType uint8, ssrc uint32, nack bool) (*Receiver, error) {
	purpose := C.cpay_purpose(C.CPAY_FOR_LIVE)
	if nack {
		purpose = C.CPAY_FOR_LIVE_WITH_NACK
	}
	var status C.cpay_status
	made := C.stream_new(C.cpay_codec(codec), C.uint32_t(rate), C.uint8_t(payloadType), C.uint32_t(ssrc), purpose, &status)
	if status != C.CPAY_OK {
		if made != nil {
			C.stream_free(made)
		}
		return nil, fmt.Errorf("no receiver: %w", Error(status))
	}
	r := &Receiver{made}
	runtime.SetFinalizer(r, (*Receiver).Close)
	return r, nil
}

// Close frees the receiver. A second call does nothing.
func (r *Receiver) Close() {
	if r.stream != nil {
		C.stream_free(r.stream)
		r.stream = nil
	}
}

// Receive passes a datagram that arrived at now, in milliseconds. An error concerns that datagram alone, unless memory ran out.
func (r *Receiver) Receive(now uint64, datagram []byte) error {
	defer runtime.KeepAlive(r)
	var at *C.uint8_t
	if len(datagram) > 0 {
		at = (*C.uint8_t)(&datagram[0])
	}
	s := r.stream
	if status := C.cpay_receiver_receive(&s.receiver, C.uint64_t(now), at, C.size_t(len(datagram)), &s.outcome); status != C.CPAY_OK {
		return Error(status)
	}
	return nil
}

// Frames returns the frames that are due at now. Frames that the library refuses are left out; it counts them.
func (r *Receiver) Frames(now uint64) ([]Frame, error) {
	defer runtime.KeepAlive(r)
	var frames []Frame
	s := r.stream
	for {
		switch status := C.cpay_receiver_lend(&s.receiver, C.uint64_t(now), &s.unit, &s.bytes); {
		case status == C.CPAY_NONE:
			return frames, nil
		case status != C.CPAY_OK:
			return frames, Error(status)
		case s.unit.fault == C.CPAY_OK:
			u := &s.unit
			frames = append(frames, Frame{C.GoBytes(unsafe.Pointer(s.bytes), C.int(u.bytes)), uint64(u.rtp_time), uint64(u.first),
				uint64(u.last), bool(u.contiguous), bool(u.decodable), bool(u.keyframe)})
		}
	}
}

// Missing returns the numbers to request by a generic NACK (RFC 4585, section 6.2.1), lowest first.
func (r *Receiver) Missing() ([]uint16, error) {
	defer runtime.KeepAlive(r)
	s := r.stream
	if status := C.cpay_receiver_missing(&s.receiver, &s.missing[0], C.size_t(len(s.missing)), &s.count); status != C.CPAY_OK {
		return nil, Error(status)
	}
	numbers := make([]uint16, s.count)
	for place := range numbers {
		numbers[place] = uint16(s.missing[place])
	}
	return numbers, nil
}

// Finish says that the stream has ended: all complete frames are due.
func (r *Receiver) Finish() error {
	defer runtime.KeepAlive(r)
	if status := C.cpay_receiver_finish(&r.stream.receiver); status != C.CPAY_OK {
		return Error(status)
	}
	return nil
}
