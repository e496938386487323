/* Receives packets of Opus or VP8 through libwebrtc's packet buffers, as Debian's tg_owt has them: libwebrtc KIND RUNS. Opus goes through
 * the parser of RTP and NetEq's packet buffer, which holds 64 packets; VP8 through the parser of RTP, the depacketizer, the packet buffer of video and a copy of
 * the frame's bytes. It prints the nanoseconds of processor time of a packet, as the least of several runs, and with `idle` the bytes of
 * a stream that got one packet. No decoder runs, and nothing waits for a time. */
#include <malloc.h>
#include <time.h>

#include <cstdio>
#include <cstdlib>
#include <cstring>
#include <memory>
#include <vector>

#include "api/neteq/tick_timer.h"
#include "modules/audio_coding/neteq/decoder_database.h"
#include "modules/audio_coding/neteq/packet_buffer.h"
#include "modules/audio_coding/neteq/statistics_calculator.h"
#include "modules/rtp_rtcp/source/rtp_packet_received.h"
#include "modules/rtp_rtcp/source/video_rtp_depacketizer_vp8.h"
#include "modules/video_coding/packet_buffer.h"

namespace {

constexpr int kRounds = 2176, kHeader = 12, kFrame = 17, kStreams = 1000, kHeld = 64;

[[noreturn]] void Fail(const char* what) {
  fprintf(stderr, "libwebrtc: %s\n", what);
  exit(EXIT_FAILURE);
}

class Stream {
 public:
  virtual ~Stream() = default;
  virtual void Receive(const webrtc::RtpPacketReceived& packet) = 0;
  virtual void Pop() = 0;
};

class Audio : public Stream {
 public:
  Audio() : database_(nullptr, absl::nullopt), buffer_(65535, &timer_) {}

  void Receive(const webrtc::RtpPacketReceived& parsed) override {
    webrtc::Packet packet;
    packet.timestamp = parsed.Timestamp();
    packet.sequence_number = parsed.SequenceNumber();
    packet.payload_type = parsed.PayloadType();
    packet.payload.SetData(parsed.payload().data(), parsed.payload_size());
    if (buffer_.InsertPacket(std::move(packet), &statistics_, 960, 48000, 100, database_) != webrtc::PacketBuffer::kOK) Fail("refused");
  }

  void Pop() override {
    if (!buffer_.GetNextPacket()) Fail("a packet is missing");
  }

 private:
  webrtc::TickTimer timer_;
  webrtc::StatisticsCalculator statistics_;
  webrtc::DecoderDatabase database_;
  webrtc::PacketBuffer buffer_;
};

class Video : public Stream {
 public:
  Video() : buffer_(512, 2048) {}

  void Receive(const webrtc::RtpPacketReceived& parsed) override {
    auto payload = depacketizer_.Parse(parsed.PayloadBuffer());
    if (!payload) Fail("refused");
    payload->video_header.is_last_packet_in_frame |= parsed.Marker();
    auto packet = std::make_unique<webrtc::video_coding::PacketBuffer::Packet>(parsed, payload->video_header);
    packet->video_payload = std::move(payload->video_payload);
    auto result = buffer_.InsertPacket(std::move(packet));
    for (const auto& part : result.packets) frame_.insert(frame_.end(), part->video_payload.cdata(), part->video_payload.cdata() + part->video_payload.size());
    if (!result.packets.empty()) buffer_.ClearTo(parsed.SequenceNumber());
  }

  void Pop() override {
    if (frame_.empty()) Fail("a frame is missing");
    frame_.clear();
  }

 private:
  webrtc::VideoRtpDepacketizerVp8 depacketizer_;
  webrtc::video_coding::PacketBuffer buffer_;
  std::vector<uint8_t> frame_;
};

bool is_video = false;

void ReceiveNumber(Stream* one, uint64_t number) {
  static uint8_t bytes[1400];
  uint64_t frame = is_video ? kFrame : 1;
  bool ends = is_video && number % kFrame == kFrame - 1;
  auto time = static_cast<uint32_t>(number / frame * 960);
  bytes[0] = 0x80, bytes[1] = static_cast<uint8_t>(96 | (ends ? 0x80 : 0));
  bytes[2] = static_cast<uint8_t>(number >> 8), bytes[3] = static_cast<uint8_t>(number);
  for (int i = 0; i < 4; i++) bytes[4 + i] = static_cast<uint8_t>(time >> (24 - 8 * i));
  bytes[11] = 7;
  // of a frame that refers to another: a keyframe would need its size
  if (is_video) bytes[kHeader] = number % kFrame == 0 ? 0x10 : 0, bytes[kHeader + 1] = 1;
  webrtc::RtpPacketReceived packet;
  if (!packet.Parse(bytes, kHeader + (is_video ? 1200 : 120))) Fail("refused");
  one->Receive(packet);
}

std::unique_ptr<Stream> NewStream() {
  if (is_video) return std::make_unique<Video>();
  return std::make_unique<Audio>();
}

double TimeNow() {
  timespec time;
  clock_gettime(CLOCK_PROCESS_CPUTIME_ID, &time);
  return 1e9 * static_cast<double>(time.tv_sec) + static_cast<double>(time.tv_nsec);
}

void PrintIdle() {
  std::vector<std::unique_ptr<Stream>> streams;
  streams.reserve(kStreams);
  size_t before = mallinfo2().uordblks;
  for (int i = 0; i < kStreams; i++) {
    streams.push_back(NewStream());
    ReceiveNumber(streams.back().get(), 0);
  }
  printf("%zu\n", (mallinfo2().uordblks - before) / kStreams);
}

}  // namespace

int main(int count, char** words) {
  if (count != 3) return EXIT_FAILURE;
  is_video = !strcmp(words[1], "vp8") || !strcmp(words[1], "idle-vp8");
  if (!strncmp(words[1], "idle", 4)) return PrintIdle(), EXIT_SUCCESS;
  auto one = NewStream();
  uint64_t number = 0, frame = is_video ? kFrame : 1;
  for (; !is_video && number < kHeld; number++) ReceiveNumber(one.get(), number);
  double least = 0;
  for (int run = 0; run < atoi(words[2]); run++) {
    double start = TimeNow();
    for (int i = 0; i < kRounds; i++) {
      ReceiveNumber(one.get(), number++);
      if (number % frame == 0) one->Pop();
    }
    double took = (TimeNow() - start) / kRounds;
    if (run == 0 || took < least) least = took;
  }
  printf("%.1f\n", least);
  return EXIT_SUCCESS;
}
