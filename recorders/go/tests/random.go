// Goroutines that take locks at random, in orders that can't hang, and say which they took with which others held: `HELD MODE LOCK MODE` in
// each line, which is found out without the recorder. Arguments: a seed, and how many steps each goroutine makes.
package main

import (
	"fmt"
	"math/rand"
	"os"
	"sort"
	"strconv"
	"sync"
)

const kinds, each, tasks = 6, 3, 4

// Of each lock of an even kind the mutex is taken, of an odd one the other.
type lock struct {
	mutex  *sync.Mutex
	shared *sync.RWMutex
}

type (
	kind0 struct{ mu sync.Mutex }
	kind1 struct{ mu sync.RWMutex }
	kind2 struct{ mu sync.Mutex }
	kind3 struct{ mu sync.RWMutex }
	kind4 struct{ mu sync.Mutex }
	kind5 struct{ mu sync.RWMutex }
)

var made = [kinds]func() *lock{
	func() *lock { return &lock{mutex: &(&kind0{}).mu} }, func() *lock { return &lock{shared: &(&kind1{}).mu} },
	func() *lock { return &lock{mutex: &(&kind2{}).mu} }, func() *lock { return &lock{shared: &(&kind3{}).mu} },
	func() *lock { return &lock{mutex: &(&kind4{}).mu} }, func() *lock { return &lock{shared: &(&kind5{}).mu} },
}

var locks [kinds][each]*lock
var said = map[string]bool{}
var saying = make(chan bool, 1) // stands for a lock that isn't recorded

type held struct {
	kind int
	mode string
	end  func()
}

func say(line string) {
	saying <- true
	said[line] = true
	<-saying
}

// take takes a lock of a kind by a random call.
func take(random *rand.Rand, of int) (held, bool) {
	lock := locks[of][random.Intn(each)]
	isShared := of%2 == 1
	switch choice := random.Intn(4); {
	case !isShared && choice == 0:
		return held{of, "tw", lock.mutex.Unlock}, lock.mutex.TryLock()
	case !isShared:
		lock.mutex.Lock()
		return held{of, "w", lock.mutex.Unlock}, true
	case choice == 0:
		return held{of, "tr", lock.shared.RUnlock}, lock.shared.TryRLock()
	case choice == 1:
		lock.shared.Lock()
		return held{of, "w", lock.shared.Unlock}, true
	default:
		lock.shared.RLock()
		return held{of, "r", lock.shared.RUnlock}, true
	}
}

func work(seed int64, steps int) {
	random := rand.New(rand.NewSource(seed))
	for i := 0; i < steps; i++ {
		var holds []held
		for of := random.Intn(2); of < kinds; of += 1 + random.Intn(3) {
			taken, isTaken := take(random, of)
			if !isTaken {
				continue
			}
			for _, before := range holds {
				say(fmt.Sprintf("%d %s %d %s", before.kind, before.mode, taken.kind, taken.mode))
			}
			holds = append(holds, taken)
			if len(holds) > 1 && random.Intn(4) == 0 { // out of order
				holds[0].end()
				holds = holds[1:]
			}
		}
		random.Shuffle(len(holds), func(i, j int) { holds[i], holds[j] = holds[j], holds[i] })
		for _, each := range holds {
			if each.mode[len(each.mode)-1] == 'w' && random.Intn(3) == 0 { // another goroutine releases it
				done := make(chan bool)
				go func() { each.end(); done <- true }()
				<-done
			} else {
				each.end()
			}
		}
	}
}

func main() {
	seed, _ := strconv.ParseInt(os.Args[1], 10, 64)
	steps, _ := strconv.Atoi(os.Args[2])
	for number := range locks {
		for i := range locks[number] {
			locks[number][i] = made[number]()
		}
	}
	var group sync.WaitGroup
	for task := int64(0); task < tasks; task++ {
		group.Add(1)
		go func(seed int64) { defer group.Done(); work(seed, steps) }(seed*tasks + task)
	}
	group.Wait()
	var lines []string
	for line := range said {
		lines = append(lines, line)
	}
	sort.Strings(lines)
	for _, line := range lines {
		fmt.Println(line)
	}
}
