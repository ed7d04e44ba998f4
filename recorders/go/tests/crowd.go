// Many goroutines at once, which do the same with locks of their own.
package main

import "sync"

type connection struct {
	mu    sync.Mutex
	state sync.RWMutex
}

var served sync.Mutex
var count int

func serve() {
	each := &connection{}
	for i := 0; i < 100; i++ {
		each.mu.Lock()
		each.state.RLock()
		served.Lock()
		count++
		served.Unlock()
		each.state.RUnlock()
		each.mu.Unlock()
	}
}

func main() {
	var group sync.WaitGroup
	for i := 0; i < 3000; i++ {
		group.Add(1)
		go func() { defer group.Done(); serve() }()
	}
	group.Wait()
	println(count)
}
