// Locks that another goroutine releases, as Go allows.
package main

import "sync"

var a, b, c, d sync.Mutex
var rw sync.RWMutex

func after(do func()) {
	done := make(chan struct{})
	go func() { do(); close(done) }()
	<-done
}

func main() {
	a.Lock()
	after(a.Unlock)
	b.Lock() // nothing is held
	b.Unlock()
	rw.RLock()
	after(rw.RUnlock)
	c.Lock()
	a.Lock()
	after(c.Unlock) // not the newest one
	d.Lock()
	d.Unlock()
	a.Unlock()
	after(func() { b.Lock() }) // its goroutine ends holding it
	b.Unlock()
	b.Lock()
	b.Unlock()
}
