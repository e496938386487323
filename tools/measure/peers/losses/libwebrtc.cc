/* The units of a schedule through libwebrtc, as Debian's tg_owt has it: libwebrtc KIND. Opus goes through NetEq, which gives 10 ms of
 * sound at a time and hands packets to a decoder that notes them; VP8 through the assembler of frames and the buffer of decodable frames.
 * Both count the milliseconds of the schedule. */
#include <memory>
#include <vector>

#include "api/audio/audio_frame.h"
#include "api/audio_codecs/audio_decoder_factory.h"
#include "api/field_trials_view.h"
#include "api/neteq/neteq.h"
#include "api/video/encoded_frame.h"
#include "api/video/frame_buffer.h"
#include "api/video/rtp_video_frame_assembler.h"
#include "modules/audio_coding/neteq/default_neteq_factory.h"
#include "modules/rtp_rtcp/source/rtp_packet_received.h"
#include "rtc_base/ref_counted_object.h"
#include "system_wrappers/include/clock.h"

#include "schedule.h"

namespace {

constexpr int kSamples = 960;

int64_t now = 0;

class Decoder : public webrtc::AudioDecoder {
 public:
  void Reset() override {}
  int SampleRateHz() const override { return 48000; }
  size_t Channels() const override { return 1; }
  int PacketDuration(const uint8_t*, size_t) const override { return kSamples; }

 protected:
  int DecodeInternal(const uint8_t* encoded, size_t size, int, int16_t* decoded, SpeechType* type) override {
    print_unit(now, encoded, size);
    // A tone, so that what conceals a loss has something to repeat.
    for (int i = 0; i < kSamples; i++) decoded[i] = static_cast<int16_t>(i % 96 < 48 ? 4000 : -4000);
    *type = kSpeech;
    return kSamples;
  }
};

class Factory : public webrtc::AudioDecoderFactory {
 public:
  std::vector<webrtc::AudioCodecSpec> GetSupportedDecoders() override { return {}; }
  bool IsSupportedDecoder(const webrtc::SdpAudioFormat&) override { return true; }
  std::unique_ptr<webrtc::AudioDecoder> MakeAudioDecoder(const webrtc::SdpAudioFormat&, absl::optional<webrtc::AudioCodecPairId>) override {
    return std::make_unique<Decoder>();
  }
};

class NoTrials : public webrtc::FieldTrialsView {
 public:
  std::string Lookup(absl::string_view) const override { return ""; }
};

class Stream {
 public:
  virtual ~Stream() = default;
  virtual void Receive(const webrtc::RtpPacketReceived& packet) = 0;
  virtual void Step() = 0;
};

class Audio : public Stream {
 public:
  Audio() : clock_(0), factory_(new rtc::RefCountedObject<Factory>()) {
    webrtc::NetEq::Config config;
    config.sample_rate_hz = 48000;
    neteq_ = webrtc::DefaultNetEqFactory().CreateNetEq(config, factory_, &clock_);
    if (!neteq_->RegisterPayloadType(96, webrtc::SdpAudioFormat("opus", 48000, 2))) fail("no payload type");
  }
  void Receive(const webrtc::RtpPacketReceived& packet) override {
    webrtc::RTPHeader header;
    packet.GetHeader(&header);
    neteq_->InsertPacket(header, packet.payload());
  }
  void Step() override {
    if (now % 10 == 0) {
      webrtc::AudioFrame frame;
      bool muted = false;
      neteq_->GetAudio(&frame, &muted);
    }
    clock_.AdvanceTimeMilliseconds(1);
  }

 private:
  webrtc::SimulatedClock clock_;
  rtc::scoped_refptr<webrtc::AudioDecoderFactory> factory_;
  std::unique_ptr<webrtc::NetEq> neteq_;
};

class Video : public Stream {
 public:
  Video() : assembler_(webrtc::RtpVideoFrameAssembler::kVp8), buffer_(800, 1 << 13, trials_) {}
  void Receive(const webrtc::RtpPacketReceived& packet) override {
    for (auto& it : assembler_.InsertPacket(packet)) buffer_.InsertFrame(it.ExtractFrame());
  }
  void Step() override {
    while (buffer_.DecodableTemporalUnitsInfo())
      for (const auto& frame : buffer_.ExtractNextDecodableTemporalUnit()) print_unit(now, frame->data(), frame->size());
  }

 private:
  NoTrials trials_;
  webrtc::RtpVideoFrameAssembler assembler_;
  webrtc::FrameBuffer buffer_;
};

}  // namespace

int main(int count, char** words) {
  static arrival given;
  if (count != 2) return EXIT_FAILURE;
  std::unique_ptr<Stream> one;
  if (!strcmp(words[1], "vp8")) one = std::make_unique<Video>();
  else one = std::make_unique<Audio>();
  for (int more = next_arrival(&given); more; now++) {
    for (; more && given.at <= now; more = next_arrival(&given)) {
      webrtc::RtpPacketReceived packet(nullptr, webrtc::Timestamp::Millis(now));
      if (!packet.Parse(given.bytes, given.size)) fail("refused");
      packet.set_payload_type_frequency(!strcmp(words[1], "vp8") ? 90000 : 48000);
      one->Receive(packet);
    }
    one->Step();
  }
  return EXIT_SUCCESS;
}
