package runtime

// ---- What the recorder of lockdep needs of package runtime: which goroutine runs, who called, what an object in memory is, and
// files. This text is added to the end of malloc.go, with runtime_types.go, runtime_files.go and runtime_symbols.go; package sync has the rest
// (recorders/go/overlay/sync.go).

const (
	lockdepFrames    = 6    // callers that are kept of an allocation or an acquisition
	lockdepTypeSlots = 4096 // types of which it is kept whether they have locks
	lockdepFirstSize = 1024 // objects that the table has room for at first
	lockdepSites     = 4096 // slots of the table of places where objects are made
)

var (
	lockdepOn       = gogetenv("LOCKDEP_TRACES") != ""
	lockdepMutex    *lockdepType // the type sync.Mutex
	lockdepRWMutex  *lockdepType // the type sync.RWMutex
	lockdepOnce     *lockdepType // the type sync.Once
	lockdepTypes    [lockdepTypeSlots]uintptr
	lockdepLock     mutex // protects what follows; objects are read without it
	lockdepObjects  unsafe.Pointer
	lockdepFilled   uintptr
	lockdepSerial   uint32
	lockdepSiteSlot [lockdepSites]*lockdepSite
	lockdepSiteList [1 << 12]*[1 << 12]*lockdepSite // by number
	lockdepNumber   uint32
	lockdepRaw      func(size uintptr, typ *_type, needzero bool) unsafe.Pointer // lockdepMallocgc, which names tables of functions that call this
)

// ---- Callers, by the frame pointers that Go keeps on amd64.

type lockdepCallers [lockdepFrames]uintptr

// Fills in the callers above a frame: the return addresses, innermost first. What is left over is 0. (Nothing may move the stack meanwhile.)
//
//go:nosplit
func lockdepWalk(frame uintptr, callers *lockdepCallers) {
	stack := getg().stack
	n := 0
	for ; n < lockdepFrames && frame >= stack.lo && frame < stack.hi-goarch.PtrSize; n++ {
		callers[n] = *(*uintptr)(unsafe.Pointer(frame + goarch.PtrSize))
		next := *(*uintptr)(unsafe.Pointer(frame))
		if next <= frame {
			n++
			break
		}
		frame = next
	}
	for ; n < lockdepFrames; n++ {
		callers[n] = 0
	}
}

// The callers of the function that calls this one.
//
//go:linkname lockdep_callers sync.lockdep_callers
func lockdep_callers(callers *lockdepCallers) {
	lockdepWalk(*(*uintptr)(unsafe.Pointer(getcallersp() - 2*goarch.PtrSize)), callers)
}

// ---- Objects with locks: where each was made, by its address. An address is used again by the next object there.

// Where objects of a type are made. Kept for good.
type lockdepSite struct {
	next    *lockdepSite
	typ     *lockdepType
	callers lockdepCallers
	number  uint32
}

// made is the number of the object's site, and below it a number that is the object's own, whose last bit says that the object begins behind a
// header, as objects of more than 512 bytes with pointers do since Go 1.22. base is where the memory of the object begins.
type lockdepObject struct {
	base uintptr
	made uint64
}

const lockdepHeader = 8 // bytes

type lockdepTable struct {
	mask    uintptr
	objects unsafe.Pointer
}

func (table *lockdepTable) at(place uintptr) *lockdepObject {
	return (*lockdepObject)(add(table.objects, place&table.mask*unsafe.Sizeof(lockdepObject{})))
}

func lockdepHash(address uintptr) uintptr {
	hash := uint64(address>>3) * 0x9E3779B97F4A7C15
	return uintptr(hash ^ hash>>32)
}

// The entry of an object, or the empty one where it belongs.
func (table *lockdepTable) find(base uintptr) *lockdepObject {
	for place := lockdepHash(base); ; place++ {
		object := table.at(place)
		if found := atomic.Loaduintptr(&object.base); found == base || found == 0 {
			return object
		}
	}
}

// A table with room for so many objects, outside the heap.
func lockdepNewTable(size uintptr) *lockdepTable {
	table := (*lockdepTable)(persistentalloc(unsafe.Sizeof(lockdepTable{}), 0, &memstats.other_sys))
	table.mask = size - 1
	table.objects = persistentalloc(size*unsafe.Sizeof(lockdepObject{}), 0, &memstats.other_sys)
	return table
}

// The table, with room for one more. Whoever reads goes on in the old one meanwhile, so that stays.
func lockdepRoom() *lockdepTable {
	table := (*lockdepTable)(lockdepObjects)
	if table == nil {
		table = lockdepNewTable(lockdepFirstSize)
		atomic.StorepNoWB(unsafe.Pointer(&lockdepObjects), unsafe.Pointer(table))
	}
	if lockdepFilled*2 <= table.mask {
		return table
	}
	larger := lockdepNewTable(2 * (table.mask + 1))
	for place := uintptr(0); place <= table.mask; place++ {
		if object := table.at(place); object.base != 0 {
			*larger.find(object.base) = *object
		}
	}
	atomic.StorepNoWB(unsafe.Pointer(&lockdepObjects), unsafe.Pointer(larger))
	return larger
}

// The site of an allocation.
func lockdepSiteOf(typ *lockdepType, callers *lockdepCallers) *lockdepSite {
	hash := uintptr(unsafe.Pointer(typ))
	for _, caller := range callers {
		hash = hash*31 + caller
	}
	slot := &lockdepSiteSlot[lockdepHash(hash<<3)%lockdepSites]
	for site := *slot; site != nil; site = site.next {
		if site.typ == typ && site.callers == *callers {
			return site
		}
	}
	site := (*lockdepSite)(persistentalloc(unsafe.Sizeof(lockdepSite{}), 0, &memstats.other_sys))
	lockdepNumber++
	site.next, site.typ, site.callers, site.number = *slot, typ, *callers, lockdepNumber
	*slot = site
	const half = uint32(len(lockdepSiteList))
	page := &lockdepSiteList[site.number/half%half]
	if *page == nil {
		*page = (*[half]*lockdepSite)(persistentalloc(unsafe.Sizeof([half]*lockdepSite{}), 0, &memstats.other_sys))
	}
	(*page)[site.number%half] = site
	return site
}

// Notes an object that was just made, with the callers.
func lockdepNote(object unsafe.Pointer, typ *lockdepType, callers *lockdepCallers) {
	base, _, _ := findObject(uintptr(object), 0, 0)
	if base == 0 {
		return
	}
	lock(&lockdepLock)
	table := lockdepRoom()
	site := lockdepSiteOf(typ, callers)
	lockdepSerial += 2
	serial := lockdepSerial
	if base != uintptr(object) {
		serial |= 1
	}
	found := table.find(base)
	atomic.Store64(&found.made, uint64(site.number)<<32|uint64(serial))
	if found.base == 0 {
		atomic.Storeuintptr(&found.base, base)
		lockdepFilled++
	}
	unlock(&lockdepLock)
}

// Whether an object that is about to be made may have a lock. One without a type may: since Go 1.25 the compiler puts variables without pointers
// together, up to maxTinySize bytes. Little else asks for so few bytes of zeros.
func lockdepIsNoted(size uintptr, typ *_type, needzero bool) bool {
	if lockdepMutex == nil || size == 0 {
		return false
	}
	if typ == nil {
		return needzero && size <= maxTinySize
	}
	return lockdepKnownLock((*lockdepType)(unsafe.Pointer(typ)))
}

// Makes an object, and notes it with the callers above a frame. A small one would share its memory with others; it gets its own.
//
//go:nosplit
func lockdepMake(size uintptr, typ *_type, needzero bool, frame uintptr) unsafe.Pointer {
	var callers lockdepCallers
	lockdepWalk(frame, &callers)
	if size < maxTinySize {
		size = maxTinySize
	}
	object := lockdepRaw(size, typ, needzero)
	lockdepNote(object, (*lockdepType)(unsafe.Pointer(typ)), &callers)
	return object
}

// The program calls this itself for variables that are put together, and else functions that call it, as newobject.
func mallocgc(size uintptr, typ *_type, needzero bool) unsafe.Pointer {
	if !lockdepOn || !lockdepIsNoted(size, typ, needzero) {
		return lockdepMallocgc(size, typ, needzero)
	}
	frame := getcallersp() - 2*goarch.PtrSize
	if typ != nil {
		frame = *(*uintptr)(unsafe.Pointer(frame))
	}
	return lockdepMake(size, typ, needzero, frame)
}

// Which object an address is in: 0 if that isn't known, as for a global; and the offset of the address in the object.
//
//go:linkname lockdep_made sync.lockdep_made
func lockdep_made(address uintptr) (made uint64, offset uintptr) {
	base, _, _ := findObject(address, 0, 0)
	table := (*lockdepTable)(atomic.Loadp(unsafe.Pointer(&lockdepObjects)))
	if base == 0 || table == nil {
		return 0, 0
	}
	made = atomic.Load64(&table.find(base).made)
	return made, address - base - uintptr(made&1)*lockdepHeader
}

func lockdepSiteNumbered(number uint32) *lockdepSite {
	const half = uint32(len(lockdepSiteList))
	return lockdepSiteList[number/half%half][number%half]
}

// The offset in an element, of an offset in an object that has one or more.
//
//go:linkname lockdep_element sync.lockdep_element
func lockdep_element(number uint32, offset uintptr) uintptr {
	if typ := lockdepSiteNumbered(number).typ; typ != nil {
		return offset % typ.size
	}
	return offset
}

// What a lock at an offset of an element is called, and who made the object.
//
//go:linkname lockdep_describe sync.lockdep_describe
func lockdep_describe(number uint32, offset uintptr, callers *lockdepCallers) (name string) {
	site := lockdepSiteNumbered(number)
	*callers = site.callers
	return lockdepMember(site.typ, offset)
}

// Where the globals begin that an address is among; 0 if it isn't that of a global.
//
//go:linkname lockdep_globals sync.lockdep_globals
func lockdep_globals(address uintptr) uintptr {
	for _, module := range activeModules() {
		if address >= module.noptrdata && address < module.enoptrbss {
			return module.noptrdata
		}
	}
	return 0
}

// ---- Goroutines.

//go:linkname lockdep_task sync.lockdep_task
func lockdep_task() (task unsafe.Pointer, goroutine uint64) {
	gp := getg()
	return gp.lockdep, uint64(gp.goid)
}

//go:linkname lockdep_set_task sync.lockdep_set_task
func lockdep_set_task(task unsafe.Pointer) { getg().lockdep = task }

// The function that the running goroutine began with.
//
//go:linkname lockdep_start sync.lockdep_start
func lockdep_start() string {
	fn := findfunc(getg().startpc)
	if !fn.valid() {
		return ""
	}
	return funcname(fn)
}

//go:linkname lockdep_begin sync.lockdep_begin
func lockdep_begin(mutex, rwMutex, once unsafe.Pointer) bool {
	lockdepRaw, lockdepMutex, lockdepRWMutex, lockdepOnce = lockdepMallocgc, (*lockdepType)(mutex), (*lockdepType)(rwMutex), (*lockdepType)(once)
	return lockdepOn
}

//go:linkname lockdep_getenv sync.lockdep_getenv
func lockdep_getenv(name string) string { return gogetenv(name) }
