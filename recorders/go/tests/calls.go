// Each call that is recorded, once.
package main

import "sync"

var (
	mutex sync.Mutex
	both  sync.RWMutex
	once  sync.Once
)

func tries() {
	if mutex.TryLock() {
		mutex.Unlock()
	}
	if both.TryLock() {
		if mutex.TryLock() {
			mutex.Unlock()
		}
		both.Unlock()
	}
	if both.TryRLock() {
		both.RUnlock()
	}
}

func readers() {
	reader := both.RLocker()
	reader.Lock()
	mutex.Lock()
	mutex.Unlock()
	reader.Unlock()
}

func waits() {
	condition := sync.NewCond(&mutex)
	isSet := false
	mutex.Lock()
	go func() {
		mutex.Lock()
		isSet = true
		condition.Signal()
		mutex.Unlock()
	}()
	for !isSet {
		condition.Wait()
	}
	mutex.Unlock()
}

func initialises() {
	once.Do(func() { mutex.Lock(); mutex.Unlock() })
	once.Do(nil) // nothing is held
	both.RLock()
	once.Do(nil)
	both.RUnlock()
}

func main() {
	mutex.Lock()
	mutex.Unlock()
	tries()
	both.RLock()
	both.RUnlock()
	readers()
	waits()
	initialises()
}
