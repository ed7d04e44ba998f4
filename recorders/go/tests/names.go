// How locks are named: each is taken once, in the order of the test's list.
package main

import "sync"

type account struct {
	name string
	mu   sync.Mutex
}

type bank struct {
	count int
	inner account
	table [4]struct{ lock sync.RWMutex }
	sync.Mutex
}

type plain struct {
	count int
	mu    sync.Mutex
}

type myMutex struct{ sync.Mutex }

type guarded struct {
	id   int
	lock myMutex
}

type box[T any] struct {
	value T
	mu    sync.Mutex
}

type lazy struct {
	text string
	once sync.Once
}

var (
	global  sync.Mutex
	many    [3]account
	pointed = &account{name: "static"}
	table   = map[string]*account{}
)

func touch(locks ...sync.Locker) {
	for _, lock := range locks {
		lock.Lock()
		lock.Unlock()
	}
}

func newAccount() *account { return &account{name: "made"} }

//go:noinline
func local() (*sync.RWMutex, *sync.RWMutex) {
	var first, second sync.RWMutex
	return &first, &second
}

func main() {
	touch(&global, &many[0].mu, &many[1].mu, &pointed.mu)
	touch(&newAccount().mu)
	made := &bank{}
	touch(&made.inner.mu, &made.table[2].lock, made)
	touch(&(&guarded{}).lock)
	touch(&(&box[int]{}).mu)
	slice := make([]account, 10)
	touch(&slice[0].mu, &slice[7].mu)
	var grown []plain
	grown = append(grown, plain{}, plain{})
	touch(&grown[1].mu, &append([]plain(nil), make([]plain, 3)...)[2].mu)
	table["a"] = &account{}
	touch(&table["a"].mu)
	touch(local())
	held := &lazy{}
	global.Lock()
	held.once.Do(func() {})
	global.Unlock()
}
