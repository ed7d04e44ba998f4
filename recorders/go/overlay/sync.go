package sync

// ---- The recorder of lockdep: which lock is taken with which others held. This text is added to the end of mutex.go, with
// sync_classes.go, sync_states.go and sync_calls.go. There the methods Lock, TryLock and Unlock are renamed to rawLock, rawTryLock and
// rawUnlock, as those of RWMutex are in rwmutex.go.
//
// A goroutine is a task. What it holds is a state, which has a number; each state that is new is written at once, by the first two
// goroutines that are in it, as acquisitions of all that is held and their releases. So a state that was met before costs a look at a
// few words, there are few files, and nothing is lost by a signal, os.Exit, a panic or a hang. The record comes before the wait.
//
// The files are in LOCKDEP_TRACES/raw, in the form of recorders/log.md: TIME-PID has the process, its classes and what it starts, TIME-PID-page
// is a page of counts, 64 bytes for each processor, and TIME-PID-NUMBER has the records of a goroutine.

// The text by which `lockdep run` recognises a program that has this recorder. At its end is the variable that says where the recording goes.
var ldSign = "lockdep recorder of Go for LOCKDEP_TRACES"

const ldVariable = "LOCKDEP_TRACES"

const (
	ldMostHeld    = 48     // locks that a task can hold, by the format
	ldMostAlone   = 8      // locks of a class that are told apart whatever happens to them
	ldMostApart   = 32     // those that are told apart if others are held too
	ldMostStates  = 200000 // beyond it, locks of a class aren't told apart any more
	ldMostFiles   = 2000   // goroutines with a file of their own; others share these
	ldMostClasses = 8000   // names that traces may have together
	ldMostRecords = 999800 // of a file, so that one more state has room in a trace
	ldKnownSteps  = 16     // steps that a task keeps
	ldFrames      = 6      // callers of an acquisition, as in package runtime
	ldFirstLocks  = 1024   // slots of the table of locks at first
	ldCountBytes  = 4096   // of the page of counts
	ldCountRow    = 8      // counts of a processor
	ldTakerFrames = 32     // callers that are looked through for who takes a lock
	ldPathRoom    = 256
	ldDecimal     = 10
)

// The counts, by their places in a row.
const (
	ldOperations = iota
	ldBeyondHeld
	ldUnseenReleases
	ldUnwritten
	ldBeyondClasses
	ldFullTraces
)

const ldCountNames = "operations beyond-held unseen-releases unwritten beyond-classes full-traces"

// The modes, as the files have them.
const (
	ldWriter      = 0
	ldTriedWriter = 1
	ldReleased    = 2
	ldReader      = 3
	ldTriedReader = 4
)

type ldCallers [ldFrames]uintptr

func lockdep_begin(mutex, rwMutex, once unsafe.Pointer) bool
func lockdep_getenv(name string) string
func lockdep_task() (task *ldTask, goroutine uint64)
func lockdep_set_task(task *ldTask)
func lockdep_start() string

//go:noescape
func lockdep_callers(callers *ldCallers)
func lockdep_made(address uintptr) (made uint64, offset uintptr)

//go:noescape
func lockdep_describe(site uint32, offset uintptr, callers *ldCallers) (name string)
func lockdep_element(site uint32, offset uintptr) uintptr
func lockdep_globals(address uintptr) uintptr
func lockdep_symbol(address, known uintptr, knownName string) (name string, offset uintptr)
func lockdep_append(path []byte, data []byte) bool
func lockdep_page(path []byte, size uintptr) unsafe.Pointer
func lockdep_clock() int64
func lockdep_pid() int

// A lock that is held, or waited for. before is the state without it and what was taken after it.
type ldHold struct {
	lock          *ldLock
	before, after uint32
	key           uint32
	mode          uint8
	callers       ldCallers
}

// A step from a state to the next by an acquisition, as it was last taken.
type ldStep struct {
	from  uint32
	taken uint32 // the key and the mode
	to    uint32
}

// What a goroutine holds. The next goroutine that runs in its place takes over the memory.
type ldTask struct {
	turn      uint32 // 1 while somebody uses it
	goroutine uint64
	state     uint32
	holds     []ldHold
	waits     ldHold // what it is about to take
	known     [ldKnownSteps]ldStep
	file      *ldFile
	next      *ldTask
}

type ldLock struct {
	address uintptr
	made    uint64 // the object that it is in
	key     uint32
	held    int32          // how often it is held
	holder  unsafe.Pointer // *ldTask: the last writer
}

type ldTable struct {
	mask  uintptr
	slots []unsafe.Pointer
}

// The number 0 of a class is that of all its locks that aren't told apart.
type ldKey struct {
	class, ordinal uint32
	isTold         bool
}

type ldClass struct {
	rest     uint32
	ordinals uint32
}

// What is held, in the order of acquisition. The first two goroutines that were in it wrote it.
type ldState struct {
	first, second uint64
}

type ldStepKey struct {
	from, taken uint32
}

// Where locks of a class are made: the site of their object and the offset in it, or a global's address.
type ldMade struct {
	site  uint32
	place uintptr
}

type ldFile struct {
	number  uint32
	records int
}

type ldPlace struct {
	text, function string
}

var (
	ldOn      bool
	ldMutex   Mutex // protects what follows
	ldPrefix  []byte
	ldCounts  *[ldCountBytes / 8]uint64
	ldTasks   *ldTask
	ldLocks   unsafe.Pointer // *ldTable; it is read without the mutex
	ldFilled  uintptr
	ldKeys    []ldKey
	ldClasses []ldClass
	ldByMade  map[ldMade]uint32
	ldByText  map[string]uint32
	ldStates  []ldState
	ldSteps   map[ldStepKey]uint32
	ldPlaces  map[ldCallers]uint32
	ldFiles   []*ldFile
	ldStarted map[string]bool
	ldText    []byte
)

func init() {
	if lockdep_begin(ldTypeOf((*Mutex)(nil)), ldTypeOf((*RWMutex)(nil)), ldTypeOf((*Once)(nil))) {
		ldStart(lockdep_getenv(ldSign[len(ldSign)-len(ldVariable):]))
	}
}

// The type that a pointer points to, by the words of an interface and of a pointer's type.
func ldTypeOf(pointer any) unsafe.Pointer {
	const elem = 48 // a type's size; what is pointed to stands behind it
	typ := *(*unsafe.Pointer)(unsafe.Pointer(&pointer))
	return *(*unsafe.Pointer)(unsafe.Add(typ, elem))
}

func ldStart(folder string) {
	ldPrefix = append(ldPrefix, folder...)
	ldPrefix = append(ldPrefix, "/raw/"...)
	clock, pid := ldDigits(uint64(lockdep_clock())), ldDigits(uint64(lockdep_pid()))
	ldPrefix = append(ldPrefix, "0000000000000000000"[:19-len(clock)]...)
	ldPrefix = append(append(append(ldPrefix, clock...), '-'), pid...)
	page := lockdep_page(ldPath("-page"), ldCountBytes)
	if page == nil {
		return
	}
	ldCounts = (*[ldCountBytes / 8]uint64)(page)
	ldLocks = unsafe.Pointer(&ldTable{mask: ldFirstLocks - 1, slots: make([]unsafe.Pointer, ldFirstLocks)})
	ldKeys, ldStates, ldClasses = make([]ldKey, 1), make([]ldState, 1), make([]ldClass, 1)
	ldByMade, ldByText = map[ldMade]uint32{}, map[string]uint32{}
	ldSteps, ldPlaces = map[ldStepKey]uint32{}, map[ldCallers]uint32{}
	ldStarted = map[string]bool{}
	ldWrite("process " + pid + " " + clock + "\nQ " + ldCountNames + "\nZ " + runtime.GOROOT() + "\n")
	ldOn = true
}

func ldPath(rest string) []byte {
	path := make([]byte, 0, ldPathRoom)
	return append(append(append(path, ldPrefix...), rest...), 0)
}

func ldDigits(number uint64) string {
	var digits [20]byte
	at := len(digits)
	for {
		at--
		digits[at] = byte('0' + number%ldDecimal)
		if number /= ldDecimal; number == 0 {
			return string(digits[at:])
		}
	}
}

// Counts in the row of this processor.
func ldCount(what int) {
	row := runtime_procPin() * ldCountRow % len(ldCounts)
	ldCounts[row+what]++
	runtime_procUnpin()
}

// ---- Tasks.

func (task *ldTask) take() {
	for !atomic.CompareAndSwapUint32(&task.turn, 0, 1) {
		runtime.Gosched()
	}
}

func (task *ldTask) leave() { atomic.StoreUint32(&task.turn, 0) }

// The task of the running goroutine, taken.
func ldOwn() *ldTask {
	task, goroutine := lockdep_task()
	if task == nil {
		task = &ldTask{goroutine: goroutine}
		lockdep_set_task(task)
		ldMutex.rawLock()
		task.next, ldTasks = ldTasks, task
		ldMutex.rawUnlock()
	}
	task.take()
	if task.goroutine != goroutine {
		task.begin(goroutine)
	}
	return task
}

// Begins anew for another goroutine. What the last one still held nobody holds now.
func (task *ldTask) begin(goroutine uint64) {
	for at := range task.holds {
		atomic.AddInt32(&task.holds[at].lock.held, -1)
	}
	task.goroutine, task.state, task.holds, task.file = goroutine, 0, task.holds[:0], nil
	task.known = [ldKnownSteps]ldStep{}
}

// ---- Locks.

func ldHash(address uintptr) uintptr {
	hash := uint64(address>>2) * 0x9E3779B97F4A7C15
	return uintptr(hash ^ hash>>32)
}

func (table *ldTable) find(address uintptr) (*ldLock, *unsafe.Pointer) {
	for place := ldHash(address); ; place++ {
		slot := &table.slots[place&table.mask]
		lock := (*ldLock)(atomic.LoadPointer(slot))
		if lock == nil || lock.address == address {
			return lock, slot
		}
	}
}

// The lock at an address, if it is the one that was there before.
func ldFind(address uintptr) *ldLock {
	lock, _ := (*ldTable)(atomic.LoadPointer(&ldLocks)).find(address)
	return lock
}

// The lock at an address, which may be new. If another object is there now, whoever held the lock of the old one holds nothing of this one.
func ldLockAt(address uintptr) *ldLock {
	made, offset := lockdep_made(address)
	lock := ldFind(address)
	if lock != nil && atomic.LoadUint64(&lock.made) == made {
		return lock
	}
	ldMutex.rawLock()
	old, slot := (*ldTable)(ldLocks).find(address)
	if old != nil && old.made == made {
		ldMutex.rawUnlock()
		return old
	}
	key := ldKeyOf(ldClassOf(address, made, offset), ldMostAlone)
	if old != nil && atomic.LoadInt32(&old.held) == 0 {
		atomic.StoreUint32(&old.key, key)
		atomic.StoreUint64(&old.made, made)
		ldMutex.rawUnlock()
		return old
	}
	lock = &ldLock{address: address, made: made, key: key}
	atomic.StorePointer(slot, unsafe.Pointer(lock))
	if old == nil {
		ldGrow()
	}
	ldMutex.rawUnlock()
	if old != nil {
		ldDropElsewhere(old)
	}
	return lock
}

// Makes room in the table of locks. Whoever looks there goes on in the old one meanwhile.
func ldGrow() {
	ldFilled++
	table := (*ldTable)(ldLocks)
	if ldFilled*2 <= table.mask {
		return
	}
	larger := &ldTable{mask: 2*table.mask + 1, slots: make([]unsafe.Pointer, 2*(table.mask+1))}
	for _, lock := range table.slots {
		if lock != nil {
			_, slot := larger.find((*ldLock)(lock).address)
			*slot = lock
		}
	}
	atomic.StorePointer(&ldLocks, unsafe.Pointer(larger))
}

// ---- Acquisitions and releases.

// Before an acquisition that may wait: what is new is written. The result is the task, taken, or nil if nothing more is recorded of this one.
func ldBefore(address uintptr, mode uint8) *ldTask {
	lock := ldLockAt(address)
	task := ldOwn()
	if len(task.holds) == ldMostHeld {
		task.leave()
		ldCount(ldBeyondHeld)
		return nil
	}
	task.waits.lock, task.waits.key, task.waits.mode = lock, atomic.LoadUint32(&lock.key), mode
	lockdep_callers(&task.waits.callers)
	task.follow()
	return task
}

// After it. Another goroutine may have released meanwhile what this one held.
func (task *ldTask) after() {
	if task.state != task.waits.before {
		task.follow()
	}
	task.holds = append(task.holds, task.waits)
	task.state = task.waits.after
	atomic.AddInt32(&task.waits.lock.held, 1)
	if mode := task.waits.mode; mode == ldWriter || mode == ldTriedWriter {
		atomic.StorePointer(&task.waits.lock.holder, unsafe.Pointer(task))
	}
	task.leave()
	ldCount(ldOperations)
}

// An acquisition: `try` takes the lock if that needs no waiting, and `wait` waits for it.
//
//go:noinline
func ldAcquire(address uintptr, mode uint8, try func() bool, wait func()) {
	task := ldBefore(address, mode)
	if task == nil {
		wait()
		return
	}
	if !try() {
		task.leave()
		wait()
		task.take()
	}
	task.after()
}

// An acquisition that has succeeded.
//
//go:noinline
func ldTaken(address uintptr, mode uint8) {
	if task := ldBefore(address, mode); task != nil {
		task.after()
	}
}

// Before a release. A lock may be released by another goroutine than the one that took it.
//
//go:noinline
func ldRelease(address uintptr) {
	ldCount(ldOperations)
	lock := ldFind(address)
	if lock == nil {
		ldCount(ldUnseenReleases)
		return
	}
	task := ldOwn()
	isOwn := task.drop(lock)
	task.leave()
	if !isOwn {
		ldDropElsewhere(lock)
	}
}

// Takes the newest hold of a lock away, if there is one.
func (task *ldTask) drop(lock *ldLock) bool {
	for at := len(task.holds) - 1; at >= 0; at-- {
		if task.holds[at].lock == lock {
			task.dropAt(at)
			atomic.AddInt32(&lock.held, -1)
			return true
		}
	}
	return false
}

func (task *ldTask) dropAt(at int) {
	if last := len(task.holds) - 1; at == last {
		task.state = task.holds[at].before
		task.holds = task.holds[:last]
		return
	}
	task.holds = append(task.holds[:at], task.holds[at+1:]...)
	ldMutex.rawLock()
	task.restate(at)
	ldMutex.rawUnlock()
}

// Takes away a hold that another goroutine has: that of the writer, or of the reader. Which of several readers gave the lock to the one that
// releases it can't be known: then none of them holds it any more, and that is counted.
func ldDropElsewhere(lock *ldLock) {
	if atomic.LoadInt32(&lock.held) == 0 {
		return
	}
	if holder := (*ldTask)(atomic.LoadPointer(&lock.holder)); holder != nil && holder.dropForOther(lock) {
		return
	}
	ldMutex.rawLock()
	task := ldTasks
	ldMutex.rawUnlock()
	for found := false; task != nil; task = task.next {
		isDropped := task.dropForOther(lock)
		if found && isDropped {
			ldCount(ldUnseenReleases)
		}
		found = found || isDropped
	}
}

func (task *ldTask) dropForOther(lock *ldLock) bool {
	task.take()
	isDropped := task.drop(lock)
	task.leave()
	return isDropped
}

// ---- What the program starts.

// Notes a program that is started, once, and whether it is told where the recording is.
//
//go:linkname ldStarts syscall.lockdep_starts
func ldStarts(program string, environment []string) {
	if !ldOn {
		return
	}
	line := "X started 1 - " + program + "\n"
	for _, each := range environment {
		if ldBegins(each, ldVariable+"=") {
			line = "X started 1 recorded " + program + "\n"
		}
	}
	ldMutex.rawLock()
	if !ldStarted[line] {
		ldStarted[line] = true
		ldWrite(line)
	}
	ldMutex.rawUnlock()
}
