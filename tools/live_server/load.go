// A load for live_server, on pion: load SERVER VIEWERS PACKETS SECONDS [NAME]. One publisher sends so many packets of 1,000 bytes of VP8 a
// second by WHIP, and so many viewers, which come all at once, watch by WHEP. Viewers decode nothing. It prints JSON: how many
// viewers connected, how long that took, and which part of the packets came in the last half of the time. load.py builds and runs it.
package main

import (
	"encoding/binary"
	"encoding/json"
	"fmt"
	"io"
	"net/http"
	"os"
	"sort"
	"strconv"
	"strings"
	"sync"
	"sync/atomic"
	"time"

	"github.com/pion/interceptor"
	"github.com/pion/rtp"
	"github.com/pion/webrtc/v3"
)

func fail(err error) {
	if err != nil {
		fmt.Fprintln(os.Stderr, "load:", err)
		os.Exit(1)
	}
}

// connection offers to the server, and returns how it did.
func connect(api *webrtc.API, url string, prepare func(*webrtc.PeerConnection) error) (*webrtc.PeerConnection, error) {
	connection, err := api.NewPeerConnection(webrtc.Configuration{})
	if err != nil {
		return nil, err
	}
	if err := prepare(connection); err != nil {
		return nil, err
	}
	offer, err := connection.CreateOffer(nil)
	if err != nil {
		return nil, err
	}
	gathered := webrtc.GatheringCompletePromise(connection)
	if err := connection.SetLocalDescription(offer); err != nil {
		return nil, err
	}
	<-gathered
	response, err := http.Post(url, "application/sdp", strings.NewReader(connection.LocalDescription().SDP))
	if err != nil {
		return nil, err
	}
	answer, err := io.ReadAll(response.Body)
	response.Body.Close()
	if err != nil {
		return nil, err
	}
	if response.StatusCode != http.StatusCreated {
		return nil, fmt.Errorf("%s: %s %s", url, response.Status, answer)
	}
	return connection, connection.SetRemoteDescription(webrtc.SessionDescription{Type: webrtc.SDPTypeAnswer, SDP: string(answer)})
}

func newAPI(feedback bool) *webrtc.API {
	media, all := &webrtc.MediaEngine{}, &interceptor.Registry{}
	fail(media.RegisterDefaultCodecs())
	if feedback {
		fail(webrtc.RegisterDefaultInterceptors(media, all))
		fail(webrtc.ConfigureTWCCSender(media, all))
	}
	return webrtc.NewAPI(webrtc.WithMediaEngine(media), webrtc.WithInterceptorRegistry(all))
}

// publish sends packets until the program ends. Each second begins with a keyframe.
func publish(server, name string, rate int) {
	track, err := webrtc.NewTrackLocalStaticRTP(webrtc.RTPCodecCapability{MimeType: webrtc.MimeTypeVP8}, "video", "load")
	fail(err)
	connected := make(chan bool, 1)
	_, err = connect(newAPI(false), server+"/whip/"+name, func(it *webrtc.PeerConnection) error {
		it.OnConnectionStateChange(func(state webrtc.PeerConnectionState) {
			if state == webrtc.PeerConnectionStateConnected {
				connected <- true
			}
		})
		_, err := it.AddTransceiverFromTrack(track, webrtc.RTPTransceiverInit{Direction: webrtc.RTPTransceiverDirectionSendonly})
		return err
	})
	fail(err)
	<-connected
	go func() {
		began, picture := time.Now(), uint16(0)
		for number := 0; ; number++ {
			if due := began.Add(time.Duration(number) * time.Second / time.Duration(rate)); time.Until(due) > 0 {
				time.Sleep(time.Until(due))
			}
			const frame = 4 // packets
			payload := make([]byte, 1000)
			payload[0], payload[1] = 0x80, 0x80 // extended, with a PictureID
			if number%frame == 0 {
				picture++
				payload[0] |= 0x10
			}
			binary.BigEndian.PutUint16(payload[2:], 0x8000|picture&0x7fff)
			if number%frame == 0 {
				key := number%rate < frame
				payload[4], payload[5] = 0x10, 0x02 // shown
				if !key {
					payload[4] = 0x11
				}
				copy(payload[7:], []byte{0x9d, 0x01, 0x2a, 0x40, 0x01, 0xf0, 0x00})
			}
			track.WriteRTP(&rtp.Packet{Header: rtp.Header{Version: 2, SequenceNumber: uint16(number), Timestamp: uint32(picture) * 90000 * frame / uint32(rate),
				Marker: number%frame == frame-1}, Payload: payload})
		}
	}()
}

func main() {
	server := os.Args[1]
	viewers, _ := strconv.Atoi(os.Args[2])
	rate, _ := strconv.Atoi(os.Args[3])
	seconds, _ := strconv.Atoi(os.Args[4])
	name := "load"
	if len(os.Args) > 5 {
		name = os.Args[5]
	}
	api := newAPI(true)
	publish(server, name, rate)
	time.Sleep(2 * time.Second)
	var lock sync.Mutex
	var took []float64
	faults := map[string]int{}
	received := make([]int64, viewers)
	var counting int32
	for i := 0; i < viewers; i++ {
		i := i
		go func() {
			began := time.Now()
			note := func(fault string) {
				lock.Lock()
				faults[fault]++
				lock.Unlock()
			}
			_, err := connect(api, server+"/whep/"+name, func(it *webrtc.PeerConnection) error {
				it.OnConnectionStateChange(func(state webrtc.PeerConnectionState) {
					if state == webrtc.PeerConnectionStateConnected {
						lock.Lock()
						took = append(took, time.Since(began).Seconds())
						lock.Unlock()
					} else if state == webrtc.PeerConnectionStateFailed {
						note("failed")
					}
				})
				it.OnTrack(func(track *webrtc.TrackRemote, _ *webrtc.RTPReceiver) {
					bytes := make([]byte, 1500)
					for {
						if _, _, err := track.Read(bytes); err != nil {
							return
						}
						if atomic.LoadInt32(&counting) != 0 {
							atomic.AddInt64(&received[i], 1)
						}
					}
				})
				_, err := it.AddTransceiverFromKind(webrtc.RTPCodecTypeVideo, webrtc.RTPTransceiverInit{Direction: webrtc.RTPTransceiverDirectionRecvonly})
				return err
			})
			if err != nil {
				note(err.Error())
			}
		}()
	}
	time.Sleep(time.Duration(seconds) * time.Second / 2)
	atomic.StoreInt32(&counting, 1)
	time.Sleep(time.Duration(seconds) * time.Second / 2)
	lock.Lock()
	sort.Float64s(took)
	all := int64(0)
	none := 0
	for i := range received {
		got := atomic.LoadInt64(&received[i])
		all += got
		if got == 0 {
			none++
		}
	}
	fail(json.NewEncoder(os.Stdout).Encode(map[string]interface{}{
		"viewers": viewers, "connected": len(took), "took": took, "faults": faults, "without": none,
		"part": float64(all) / (float64(viewers) * float64(rate) * float64(seconds) / 2)}))
}
