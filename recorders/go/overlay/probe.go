// What a Go has to record rightly before what it builds is recorded. The words behind `makes` and `takes` are what has to be recorded of a line: the name
// of a lock whose object is made there; and all locks that are held when one is taken there, which is the last of them, each with its mode. Each order
// that has to be in a finding stands behind `finds`. Nothing else may be recorded.
package main

import "sync"

type account struct {
	owner string
	mu    sync.Mutex
}

type bank struct {
	names  [80]string
	shards [3]struct{ lock sync.RWMutex }
	once   sync.Once
}

type box[T any] struct {
	value T
	mu    sync.Mutex
}

type plain struct { // (an array of these has no pointers)
	count int
	mu    sync.Mutex
}

var global sync.Mutex

func after(do func()) {
	done := make(chan struct{})
	go func() { do(); close(done) }()
	<-done
}

//go:noinline
func newBox[T any]() *box[T] { return &box[T]{} } // makes main.box[int].mu

//go:noinline
func put[T any](in *box[T], value T) {
	in.mu.Lock() // takes main.bank.shards[].lock r, main.box[int].mu w
	in.value = value
	in.mu.Unlock()
}

func main() {
	owned := &account{owner: "a"} // makes main.account.mu
	table := make([]bank, 2)      // makes main.bank.shards[].lock, main.bank.once
	var local sync.Mutex          // makes main.main:50
	isSet := false
	grown := append([]plain(nil), plain{}, plain{}) // makes main.plain.mu
	small := newBox[int]()
	shard := &table[1].shards[2].lock

	global.Lock()   // takes main.global w
	owned.mu.Lock() // takes main.global w, main.account.mu w
	owned.mu.Unlock()
	global.Unlock()
	after(func() {
		owned.mu.Lock() // takes main.account.mu w
		global.Lock()   // takes main.account.mu w, main.global w
		global.Unlock()
		owned.mu.Unlock()
	})

	shard.RLock() // takes main.bank.shards[].lock r
	put(small, 1)
	shard.RUnlock()
	after(func() {
		small.mu.Lock() // takes main.box[int].mu w
		shard.Lock()    // takes main.box[int].mu w, main.bank.shards[].lock w
		shard.Unlock()
		small.mu.Unlock()
	})

	local.Lock()                // takes main.main:50 w
	table[1].once.Do(func() {}) // takes main.main:50 w, main.bank.once w
	local.Unlock()
	after(func() {
		table[0].once.Do(func() { // takes main.bank.once w
			isSet = local.TryLock() // takes main.bank.once w, main.main:50 tw
		})
	})

	if isSet { // (the other goroutine has locked it)
		local.Unlock()
	}
	global.Lock()
	after(global.Unlock)
	grown[1].mu.Lock() // takes main.plain.mu w
	grown[1].mu.Unlock()
	small.mu.Lock() // takes main.box[int].mu w
	small.mu.Unlock()
}

// finds main.global/0 EN main.account.mu/0
// finds main.account.mu/0 EN main.global/0
// finds main.bank.shards[].lock/0 SN main.box[int].mu/0
// finds main.box[int].mu/0 EN main.bank.shards[].lock/0
