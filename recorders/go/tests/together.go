// Variables of two functions by turns, collected in between, so that some lie where others were. Newer compilers put small ones together.
package main

import (
	"runtime"
	"sync"
)

var top sync.Mutex

//go:noinline
func pair() (*sync.Mutex, *sync.Mutex) {
	var first sync.Mutex
	var second sync.Mutex
	return &first, &second
}

//go:noinline
func single() (*sync.Mutex, *int32) {
	var third sync.Mutex
	var count int32
	return &third, &count
}

func main() {
	for i := 0; i < 20000; i++ {
		first, second := pair()
		first.Lock()
		second.Lock()
		second.Unlock()
		first.Unlock()
		third, count := single()
		top.Lock()
		third.Lock()
		*count++
		third.Unlock()
		top.Unlock()
		if i%2000 == 0 {
			runtime.GC()
		}
	}
}
