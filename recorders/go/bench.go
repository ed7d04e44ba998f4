// What an operation takes, in nanoseconds, with nothing new to record.
package main

import (
	"fmt"
	"sync"
	"time"
)

const rounds = 1000000

type object struct {
	mu     sync.Mutex
	shared sync.RWMutex
	next   *object
}

var kept *object
var plain *struct{ a, b, c int }

func measure(what string, do func()) {
	begin := time.Now()
	for i := 0; i < rounds; i++ {
		do()
	}
	fmt.Println(what, time.Since(begin).Nanoseconds()/rounds)
}

func main() {
	a, b := &object{}, &object{}
	measure("a lock and unlock", func() { a.mu.Lock(); a.mu.Unlock() })
	measure("two, one under the other", func() { a.mu.Lock(); b.mu.Lock(); b.mu.Unlock(); a.mu.Unlock() })
	measure("a reader", func() { a.shared.RLock(); a.shared.RUnlock() })
	measure("an object with a lock", func() { kept = &object{next: nil} })
	measure("an object without one", func() { plain = &struct{ a, b, c int }{} })
}
