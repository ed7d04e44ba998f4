// Two goroutines that read; one of the locks is released by a third one, and nobody can say whose that was.
package main

import "sync"

var shared sync.RWMutex
var after sync.Mutex

func main() {
	taken, go1, done := make(chan bool), make(chan bool), make(chan bool)
	for i := 0; i < 2; i++ {
		go func() {
			shared.RLock()
			taken <- true
			<-go1
			after.Lock()
			after.Unlock()
			done <- true
		}()
	}
	<-taken
	<-taken
	shared.RUnlock()
	shared.RUnlock()
	close(go1)
	<-done
	<-done
}
