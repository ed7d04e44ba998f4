package main

import (
	"os"
	"runtime"
	"sync"
	"sync/atomic"
)

var (
	a    = new(sync.Mutex)   // lock A
	b    = new(sync.Mutex)   // lock B
	c    = new(sync.RWMutex) // lock C
	g    = new(sync.Mutex)   // lock G
	said int32
)

func inOrder(first, second *sync.Mutex) {
	first.Lock()
	second.Lock()
	second.Unlock()
	first.Unlock()
}

func run(work func()) chan bool {
	done := make(chan bool)
	go func() {
		work()
		done <- true
	}()
	return done
}

func abba() {
	<-run(func() { inOrder(a, b) })
	<-run(func() { inOrder(b, a) })
}

func say() { atomic.StoreInt32(&said, 1) }

func awaitSaid() {
	for atomic.LoadInt32(&said) == 0 {
		runtime.Gosched()
	}
}

func crossed(back func()) {
	there := run(func() {
		inOrder(a, b)
		say()
	})
	then := run(func() {
		awaitSaid()
		back()
	})
	<-there
	<-then
}

func tryBack() {
	b.Lock()
	if a.TryLock() {
		a.Unlock()
	}
	b.Unlock()
}

func inside(first, second *sync.Mutex) {
	g.Lock()
	inOrder(first, second)
	g.Unlock()
}

func gate() {
	there, back := run(func() { inside(a, b) }), run(func() { inside(b, a) })
	<-there
	<-back
}

func held() {
	done := run(func() {
		a.Lock()
		a.Unlock()
		say()
	})
	awaitSaid()
	a.Lock()
	<-done
	a.Unlock()
}

func notified() {
	condition, isSet := sync.NewCond(g), false
	done := run(func() {
		g.Lock()
		say()
		for !isSet {
			condition.Wait()
		}
		g.Unlock()
		inOrder(b, a)
	})
	inOrder(a, b)
	awaitSaid()
	g.Lock()
	isSet = true
	condition.Signal()
	g.Unlock()
	<-done
}

func long() {
	for at := 0; at < 70000; at++ {
		a.Lock()
		a.Unlock()
	}
	abba()
}

func trySecond() {
	a.Lock()
	if b.TryLock() {
		b.Unlock()
	}
	a.Unlock()
}

func waitForCondition() {
	condition, isSet := sync.NewCond(a), false
	waiting := run(func() {
		b.Lock()
		a.Lock()
		say()
		for !isSet {
			condition.Wait()
		}
		a.Unlock()
		b.Unlock()
	})
	awaitSaid()
	<-run(func() {
		a.Lock()
		isSet = true
		condition.Signal()
		a.Unlock()
	})
	<-waiting
}

func join() {
	a.Lock()
	<-run(func() {
		b.Lock()
		b.Unlock()
	})
	a.Unlock()
}

func reader() {
	a.Lock()
	c.RLock()
	c.RUnlock()
	a.Unlock()
}

func fifty() {
	locks := make([]sync.Mutex, 50) // lock L
	for at := range locks {
		locks[at].Lock()
	}
	for at := range locks {
		locks[at].Unlock()
	}
}

func main() {
	cases := map[string]func(){"abba": abba, "crossed": func() { crossed(func() { inOrder(b, a) }) }, "tried": func() { crossed(tryBack) }, "gate": gate, "held": held,
		"notified": notified, "long": long, "try": trySecond, "condition": waitForCondition, "join": join, "reader": reader, "fifty": fifty}
	cases[os.Args[1]]()
}
