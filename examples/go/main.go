// Sends what a made encoder gives over UDP on the loopback, paced, to a receiver in the same program that
// sends no feedback; prints what was sent and what came, and ends by itself after three seconds.
//
//	CGO_CFLAGS=$(pkg-config --cflags lulqoter) CGO_LDFLAGS=$(pkg-config --libs lulqoter) go run .
package main

// #include <lulqoter.h>
import "C"

import (
	"fmt"
	"log"
	"net"
	"time"
)

const frame, payload, length = 33 * time.Millisecond, 1100, 3 * time.Second

// must ends the program where a call of the library failed, and says whether it did what was asked.
func must(result C.int32_t) bool {
	if result < 0 {
		log.Fatal(C.GoString(C.lulq_strerror(result)))
	}
	return result == C.LULQ_OK
}

// encode hands in one frame: as many packets as the target gives in its time, with room for the number.
func encode(sender *C.lulq_sender, now C.uint64_t) {
	var rates C.lulq_rates
	var index C.uint32_t
	must(C.lulq_sender_rates(sender, &rates))
	packet := append([]byte{0x90, 96, 0, 0, 0, 0, 0, 0, 0, 0, 0, 0xaa, 0xbe, 0xde, 0, 1, 0x31, 0, 0, 0}, make([]byte, payload)...)
	for left := int64(rates.target) / 8 * frame.Microseconds() / 1000000; left > 0; left -= payload {
		must(C.lulq_sender_enqueue(sender, now, C.LULQ_VIDEO, (*C.uint8_t)(&packet[0]), C.size_t(len(packet)), &index))
	}
}

// send writes what may leave now to the socket.
func send(sender *C.lulq_sender, now C.uint64_t, socket net.Conn) {
	var room [1500]byte
	var size C.size_t
	var info C.lulq_info
	for must(C.lulq_sender_pop(sender, now, (*C.uint8_t)(&room[0]), C.size_t(len(room)), &size, &info)) {
		if _, err := socket.Write(room[:size]); err != nil {
			log.Fatal(err)
		}
	}
}

// receive counts what comes until the socket is closed.
func receive(socket net.PacketConn, came chan<- int) {
	count, room := 0, make([]byte, 1500)
	for _, _, err := socket.ReadFrom(room); err == nil; _, _, err = socket.ReadFrom(room) {
		count++
	}
	came <- count
}

func main() {
	in, err := net.ListenPacket("udp", "127.0.0.1:0")
	if err != nil {
		log.Fatal(err)
	}
	out, err := net.Dial("udp", in.LocalAddr().String())
	if err != nil {
		log.Fatal(err)
	}
	came := make(chan int)
	go receive(in, came)
	var sender C.lulq_sender // all zero, as LULQ_SENDER_INIT
	if C.lulq_abi() != C.LULQ_ABI || !must(C.lulq_sender_new(&sender, C.LULQ_CONTROL_LEVEL, 0)) {
		log.Fatal("no sender")
	}
	start, next := time.Now(), time.Duration(0)
	for at := time.Duration(0); at < length; at = time.Since(start) {
		now := C.uint64_t(at.Microseconds())
		for ; next <= at; next += frame {
			encode(&sender, now)
		}
		send(&sender, now, out)
		var leaves C.uint64_t
		wake := C.uint64_t(next.Microseconds())
		if must(C.lulq_sender_next_time(&sender, &leaves)) && leaves < wake {
			wake = leaves
		}
		time.Sleep(time.Until(start.Add(time.Duration(wake) * time.Microsecond)))
	}
	var stats C.lulq_stats
	must(C.lulq_sender_stats(&sender, &stats))
	C.lulq_sender_free(&sender)
	time.Sleep(100 * time.Millisecond)
	in.Close()
	fmt.Printf("accepted %d sent %d waiting %d came %d\n", stats.accepted, stats.sent, stats.waiting, <-came)
}
