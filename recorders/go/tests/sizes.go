// Locks in objects of many sizes, with pointers and without, alone and in slices: before and behind what the allocator puts before an object.
package main

import "sync"

type small struct {
	mu   sync.Mutex
	next *int
}

type large struct {
	next *int
	data [600]byte
	mu   sync.Mutex
}

type plain struct {
	data [600]byte
	mu   sync.Mutex
}

type huge struct {
	next *int
	data [40000]byte
	mu   sync.Mutex
}

func touch(locks ...*sync.Mutex) {
	for _, lock := range locks {
		lock.Lock()
		lock.Unlock()
	}
}

func main() {
	touch(&new(small).mu, &new(large).mu, &new(plain).mu, &new(huge).mu)
	smalls, larges, plains := make([]small, 100), make([]large, 20), make([]plain, 20)
	touch(&smalls[0].mu, &smalls[99].mu, &larges[0].mu, &larges[19].mu, &plains[19].mu)
}
