// Serves the lines of a trace of one actor with libwebrtc's controller and pacer (package libtgowt-dev), and
// prints the rates after each report: `<moment> <target> <pacing>`, and at the end the packets that were sent.
#include <cstdint>
#include <cstdio>
#include <iostream>
#include <memory>
#include <sstream>
#include <string>
#include <vector>

#include "api/rtc_event_log/rtc_event_log.h"
#include "api/transport/field_trial_based_config.h"
#include "api/transport/goog_cc_factory.h"
#include "modules/congestion_controller/rtp/transport_feedback_adapter.h"
#include "modules/pacing/pacing_controller.h"
#include "modules/rtp_rtcp/include/rtp_header_extension_map.h"
#include "modules/rtp_rtcp/source/rtcp_packet/transport_feedback.h"
#include "modules/rtp_rtcp/source/rtp_header_extensions.h"
#include "modules/rtp_rtcp/source/rtp_packet_to_send.h"
#include "rtc_base/logging.h"
#include "system_wrappers/include/clock.h"

namespace {

using webrtc::DataRate;
using webrtc::DataSize;
using webrtc::RtpPacketToSend;
using webrtc::TimeDelta;
using webrtc::Timestamp;

constexpr int kNumberId = 3;
constexpr int64_t kStartMicros = 1'000'000'000;
constexpr int64_t kStartRate = 300'000;
constexpr int64_t kLeastRate = 30'000;
constexpr int64_t kGreatestRate = 10'000'000;
constexpr size_t kPaddingBytes = 224;

std::vector<uint8_t> FromHex(const std::string& hex) {
  std::vector<uint8_t> bytes;
  bytes.reserve(hex.size() / 2);
  for (size_t k = 0; k + 1 < hex.size(); k += 2) {
    auto digit = [](char c) { return c <= '9' ? c - '0' : (c | 32) - 'a' + 10; };
    bytes.push_back(static_cast<uint8_t>(digit(hex[k]) * 16 + digit(hex[k + 1])));
  }
  return bytes;
}

class Peer : public webrtc::PacingController::PacketSender {
 public:
  Peer()
      : clock_(Timestamp::Micros(kStartMicros)),
        pacer_(&clock_, this, trials_) {
    extensions_.Register<webrtc::TransportSequenceNumber>(kNumberId);
    webrtc::NetworkControllerConfig config;
    config.constraints.at_time = clock_.CurrentTime();
    config.constraints.min_data_rate = DataRate::BitsPerSec(kLeastRate);
    config.constraints.max_data_rate = DataRate::BitsPerSec(kGreatestRate);
    config.constraints.starting_rate = DataRate::BitsPerSec(kStartRate);
    config.key_value_config = &trials_;
    config.event_log = &log_;
    pacer_.SetPacingRates(DataRate::BitsPerSec(kStartRate * 5 / 2), DataRate::Zero());
    controller_ = webrtc::GoogCcNetworkControllerFactory().Create(config);
    webrtc::NetworkAvailability available;
    available.at_time = clock_.CurrentTime();
    available.network_available = true;
    Take(controller_->OnNetworkAvailability(available));
  }

  void Enqueue(int64_t at, char kind, const std::vector<uint8_t>& bytes) {
    Advance(at);
    auto packet = std::make_unique<RtpPacketToSend>(&extensions_);
    if (!packet->Parse(bytes.data(), bytes.size()))
      return;
    packet->set_packet_type(kind == 'a'   ? webrtc::RtpPacketMediaType::kAudio
                            : kind == 'r' ? webrtc::RtpPacketMediaType::kRetransmission
                            : kind == 'f' ? webrtc::RtpPacketMediaType::kForwardErrorCorrection
                                          : webrtc::RtpPacketMediaType::kVideo);
    packet->set_capture_time(clock_.CurrentTime());
    pacer_.EnqueuePacket(std::move(packet));
  }

  void Pace(int64_t at) {
    Advance(at);
    pacer_.ProcessPackets();
  }

  void Report(int64_t at, const std::vector<uint8_t>& bytes) {
    Advance(at);
    auto feedback = webrtc::rtcp::TransportFeedback::ParseFrom(bytes.data(), bytes.size());
    if (!feedback)
      return;
    auto told = adapter_.ProcessTransportFeedback(*feedback, clock_.CurrentTime());
    if (told)
      Take(controller_->OnTransportPacketsFeedback(*told));
    std::printf("%lld %lld %lld\n", static_cast<long long>(at), static_cast<long long>(target_.bps()),
                static_cast<long long>(pacing_.bps()));
  }

  int64_t sent() const { return sent_; }
  int64_t target() const { return target_.bps(); }

 private:
  void SendPacket(std::unique_ptr<RtpPacketToSend> packet, const webrtc::PacedPacketInfo& cluster) override {
    const uint16_t number = static_cast<uint16_t>(sent_++);
    packet->SetExtension<webrtc::TransportSequenceNumber>(number);
    webrtc::RtpPacketSendInfo info;
    info.transport_sequence_number = number;
    info.length = packet->size();
    info.packet_type = packet->packet_type();
    info.pacing_info = cluster;
    adapter_.AddPacket(info, 0, clock_.CurrentTime());
    rtc::SentPacket left(number, clock_.TimeInMilliseconds());
    left.info.included_in_feedback = true;
    left.info.packet_size_bytes = packet->size();
    auto told = adapter_.ProcessSentPacket(left);
    if (told)
      Take(controller_->OnSentPacket(*told));
  }

  std::vector<std::unique_ptr<RtpPacketToSend>> FetchFec() override { return {}; }

  std::vector<std::unique_ptr<RtpPacketToSend>> GeneratePadding(DataSize size) override {
    std::vector<std::unique_ptr<RtpPacketToSend>> packets;
    for (int64_t left = size.bytes(); left > 0; left -= kPaddingBytes) {
      auto packet = std::make_unique<RtpPacketToSend>(&extensions_);
      packet->set_packet_type(webrtc::RtpPacketMediaType::kPadding);
      packet->ReserveExtension<webrtc::TransportSequenceNumber>();
      packet->SetPadding(kPaddingBytes);
      packets.push_back(std::move(packet));
    }
    return packets;
  }

  void Advance(int64_t at) {
    const int64_t now = clock_.TimeInMicroseconds() - kStartMicros;
    if (at <= now)
      return;
    clock_.AdvanceTimeMicroseconds(at - now);
    if (clock_.CurrentTime() >= next_process_) {
      next_process_ = clock_.CurrentTime() + TimeDelta::Millis(25);
      webrtc::ProcessInterval interval;
      interval.at_time = clock_.CurrentTime();
      Take(controller_->OnProcessInterval(interval));
    }
  }

  void Take(webrtc::NetworkControlUpdate update) {
    if (update.pacer_config) {
      pacing_ = update.pacer_config->data_rate();
      pacer_.SetPacingRates(pacing_, update.pacer_config->pad_rate());
    }
    if (!update.probe_cluster_configs.empty())
      pacer_.CreateProbeClusters(update.probe_cluster_configs);
    if (update.target_rate)
      target_ = update.target_rate->target_rate;
  }

  webrtc::FieldTrialBasedConfig trials_;
  webrtc::RtcEventLogNull log_;
  webrtc::SimulatedClock clock_;
  webrtc::RtpHeaderExtensionMap extensions_;
  webrtc::PacingController pacer_;
  webrtc::TransportFeedbackAdapter adapter_;
  std::unique_ptr<webrtc::NetworkControllerInterface> controller_;
  Timestamp next_process_ = Timestamp::MinusInfinity();
  DataRate target_ = DataRate::BitsPerSec(kStartRate);
  DataRate pacing_ = DataRate::BitsPerSec(kStartRate * 5 / 2);
  int64_t sent_ = 0;
};

}  // namespace

int main() {
  std::ios::sync_with_stdio(false);
  rtc::LogMessage::LogToDebug(rtc::LS_NONE);
  Peer peer;
  std::string line;
  while (std::getline(std::cin, line) && line != "end") {
    std::istringstream fields(line);
    std::string verb, actor, kind, hex;
    int64_t at = 0;
    fields >> verb >> actor >> at;
    if (verb == "E" && fields >> kind >> hex)
      peer.Enqueue(at, kind[0], FromHex(hex));
    else if (verb == "P")
      peer.Pace(at);
    else if (verb == "R" && fields >> hex)
      peer.Report(at, FromHex(hex));
  }
  std::printf("end %lld %lld\n", static_cast<long long>(peer.sent()), static_cast<long long>(peer.target()));
  return 0;
}
