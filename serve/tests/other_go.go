// A program on Go's standard library alone, which calls the kernel itself: it looks at the chips' names, sets lines in
// goroutines at once, requests a line with both edges, and waits for it by the runtime's poller, with a deadline at the end.
package main

import (
	"encoding/binary"
	"fmt"
	"os"
	"path/filepath"
	"sync"
	"syscall"
	"time"
	"unsafe"
)

const (
	getLine   = 0xc250b407
	getValues = 0xc010b40e
	setValues = 0xc010b40f
	output    = 8
	edges     = 0x34 // an input, both edges
)

func ioctl(file, command uintptr, structure unsafe.Pointer) error {
	if _, _, errno := syscall.Syscall(syscall.SYS_IOCTL, file, command, uintptr(structure)); errno != 0 {
		return errno
	}
	return nil
}

func request(chip *os.File, line uint32, flags uint64) (int, error) {
	var bytes [592]byte
	binary.LittleEndian.PutUint32(bytes[0:], line)
	copy(bytes[256:], "go")
	binary.LittleEndian.PutUint64(bytes[288:], flags)
	binary.LittleEndian.PutUint32(bytes[560:], 1)
	err := ioctl(chip.Fd(), getLine, unsafe.Pointer(&bytes))
	return int(int32(binary.LittleEndian.Uint32(bytes[588:]))), err
}

// Requests, sets, reads and releases a line many times: whether all of it was right.
func work(chip *os.File, line uint32) bool {
	for turn := uint64(0); turn < 30; turn++ {
		held, err := request(chip, line, output)
		if err != nil {
			return false
		}
		set, got := [2]uint64{turn & 1, 1}, [2]uint64{9, 1}
		good := ioctl(uintptr(held), setValues, unsafe.Pointer(&set)) == nil &&
			ioctl(uintptr(held), getValues, unsafe.Pointer(&got)) == nil && got[0] == turn&1
		if syscall.Close(held) != nil || !good {
			return false
		}
	}
	return true
}

func check(err error) {
	if err != nil {
		fmt.Println("FAILED", err)
		os.Exit(1)
	}
}

func main() {
	names, err := filepath.Glob("/dev/gpiochip*")
	check(err)
	status, err := os.Stat("/dev/gpiochip1")
	check(err)
	subsystem, err := filepath.EvalSymlinks("/sys/bus/gpio/devices/gpiochip1/subsystem")
	check(err)
	chip, err := os.OpenFile("/dev/gpiochip1", os.O_RDWR, 0)
	check(err)
	var group sync.WaitGroup
	good := [4]bool{}
	for i := range good {
		group.Add(1)
		go func(i int) {
			defer group.Done()
			good[i] = work(chip, uint32(4+i))
		}(i)
	}
	group.Wait()
	number, err := request(chip, 3, edges)
	check(err)
	check(syscall.SetNonblock(number, true))
	button := os.NewFile(uintptr(number), "button")
	event := make([]byte, 480)
	length, err := button.Read(event)
	check(err)
	check(button.SetReadDeadline(time.Now().Add(20 * time.Millisecond)))
	_, err = button.Read(event)
	fmt.Println(len(names), status.Mode()&os.ModeCharDevice != 0, subsystem, good == [4]bool{true, true, true, true}, length, event[8],
		os.IsTimeout(err))
}
