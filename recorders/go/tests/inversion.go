// Two goroutines, one after the other, that take two locks in opposite orders.
package main

import (
	"fmt"
	"sync"
)

type store struct {
	mu    sync.Mutex
	items int
}

type journal struct {
	mu    sync.RWMutex
	lines int
}

func (s *store) add(j *journal) {
	s.mu.Lock()
	defer s.mu.Unlock()
	j.mu.Lock()
	j.lines++
	j.mu.Unlock()
}

func (j *journal) replay(s *store) {
	j.mu.RLock()
	defer j.mu.RUnlock()
	s.mu.Lock()
	s.items++
	s.mu.Unlock()
}

func after(do func()) {
	done := make(chan struct{})
	go func() { do(); close(done) }()
	<-done
}

func main() {
	s, j := &store{}, &journal{}
	after(func() { s.add(j) })
	after(func() { j.replay(s) })
	fmt.Println(s.items, j.lines)
}
