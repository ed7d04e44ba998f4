// Objects of two types by turns, collected in between, so that one lies where one of the other type was.
package main

import (
	"runtime"
	"sync"
)

type one struct {
	mu   sync.Mutex
	data [3]int
}

type other struct {
	data [3]int
	mu   sync.Mutex
}

type parent struct{ mu sync.Mutex }

var top parent

//go:noinline
func useOne() {
	each := &one{}
	top.mu.Lock()
	each.mu.Lock()
	each.mu.Unlock()
	top.mu.Unlock()
}

//go:noinline
func useOther() {
	each := &other{}
	each.mu.Lock()
	top.mu.Lock()
	top.mu.Unlock()
	each.mu.Unlock()
}

//go:noinline
func forget() { // an object that is collected while its lock is held
	each := &one{}
	each.mu.Lock()
}

func main() {
	for i := 0; i < 20000; i++ {
		useOne()
		useOther()
		if i%2000 == 0 {
			runtime.GC()
		}
	}
	done := make(chan struct{})
	go func() {
		forget()
		close(done)
	}()
	<-done
}
