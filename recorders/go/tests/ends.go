// Ends in the way that its argument says, with two locks taken one under the other.
package main

import (
	"os"
	"sync"
	"syscall"
)

var first, second sync.Mutex

func main() {
	first.Lock()
	second.Lock()
	switch os.Args[1] {
	case "return":
	case "exit":
		os.Exit(7)
	case "panic":
		panic("on purpose")
	case "kill":
		syscall.Kill(os.Getpid(), syscall.SIGKILL)
	case "deadlock":
		first.Lock()
	}
}
