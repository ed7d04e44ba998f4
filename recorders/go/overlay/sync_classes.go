package sync

// ---- Classes and keys.

// The number of a lock's class; 0 if there is no room for one more.
func ldClassOf(address uintptr, made uint64, offset uintptr) uint32 {
	by := ldMade{site: uint32(made >> 32), place: address}
	if made != 0 {
		by.place = lockdep_element(by.site, offset)
	}
	class, isKnown := ldByMade[by]
	if !isKnown {
		class = ldNewClass(by)
		ldByMade[by] = class
	}
	return class
}

// Writes a class, unless one that says the same is there.
func ldNewClass(by ldMade) uint32 {
	var name, before string
	var made []ldPlace
	if by.site != 0 {
		var callers ldCallers
		name = lockdep_describe(by.site, by.place, &callers)
		if made = ldOutside(callers[:]); name == "" && by.place != 0 {
			before = "+" + ldDigits(uint64(by.place))
		}
	} else if name = ldNameAt(by.place); name == ldNotLocked {
		return 0
	} else if name == "" {
		made, before = ldTaker(by.place)
	}
	line := name + "\t\tmade in\t"
	if len(made) > 0 {
		function := ldBase(made[0].function)
		line = name + "\t" + made[0].text + " " + function + "\tmade in\t" + function + before + ldAfterColon(made[0].text)
	}
	if class, isKnown := ldByText[line]; isKnown {
		return class
	}
	if len(ldClasses) > ldMostClasses {
		ldCount(ldBeyondClasses)
		return 0
	}
	class := uint32(len(ldClasses))
	ldByText[line] = class
	ldClasses = append(ldClasses, ldClass{rest: uint32(len(ldKeys))})
	ldKeys = append(ldKeys, ldKey{class: class})
	ldWrite("C " + ldDigits(uint64(class)) + "\t" + line + "\n")
	return class
}

// A mutex of package syscall under which it is looked whether a lock is held: two goroutines never wait for one another by it, although they take
// both in both orders. It isn't recorded.
const ldNotLocked = "syscall.forkingLock"

// What a global is called by its symbol; empty if that isn't known.
func ldNameAt(address uintptr) string {
	if lockdep_globals(address) == 0 {
		return ""
	}
	name, offset := lockdep_symbol(address, uintptr(unsafe.Pointer(&ldCounts)), "sync.ldCounts")
	if name != "" && offset != 0 {
		name += "+" + ldDigits(uint64(offset))
	}
	return name
}

// Who takes a lock first that nothing else is known of. If it is a global, its place among them tells it from others.
func ldTaker(address uintptr) (taker []ldPlace, before string) {
	var callers [ldTakerFrames]uintptr
	n := runtime.Callers(1, callers[:])
	if globals := lockdep_globals(address); globals != 0 {
		before = "+" + ldDigits(uint64(address-globals))
	}
	return ldOutside(callers[:n]), before
}

// The part of a path behind its last slash.
func ldBase(path string) string {
	for at := len(path) - 1; at >= 0; at-- {
		if path[at] == '/' {
			return path[at+1:]
		}
	}
	return path
}

func ldAfterColon(place string) string {
	for at := len(place) - 1; at >= 0; at-- {
		if place[at] == ':' {
			return place[at:]
		}
	}
	return ""
}

// A key for one more lock of a class: of its own, if there is room, or that of the rest.
func ldKeyOf(class uint32, most uint32) uint32 {
	if class == 0 {
		return 0
	}
	known := &ldClasses[class]
	if known.ordinals >= most || len(ldStates) > ldMostStates {
		return known.rest
	}
	known.ordinals++
	ldKeys = append(ldKeys, ldKey{class: class, ordinal: known.ordinals})
	return uint32(len(ldKeys) - 1)
}

// Tells apart what is held and what is about to be taken, as far as there is room: more than one lock is held.
func (task *ldTask) tellApart() {
	if len(task.holds) == 0 {
		return
	}
	for at := range task.holds {
		task.holds[at].tellApart()
	}
	task.waits.tellApart()
	task.restate(0)
}

// Finds the states again of what is held from a place on.
func (task *ldTask) restate(from int) {
	for at := from; at < len(task.holds); at++ {
		hold := &task.holds[at]
		hold.before = 0
		if at > 0 {
			hold.before = task.holds[at-1].after
		}
		hold.after = ldStateAfter(hold.before, hold.key, hold.mode)
	}
	task.state = 0
	if len(task.holds) > 0 {
		task.state = task.holds[len(task.holds)-1].after
	}
}

func (hold *ldHold) tellApart() {
	key := ldKeys[hold.key]
	if key.class != 0 && key.ordinal == 0 {
		hold.key = ldKeyOf(key.class, ldMostApart)
		atomic.StoreUint32(&hold.lock.key, hold.key)
	}
}

// ---- Places.

// The callers outside the runtime and this package, innermost first.
func ldOutside(callers []uintptr) []ldPlace {
	n := 0
	for n < len(callers) && callers[n] != 0 {
		n++
	}
	if n == 0 {
		return nil
	}
	frames := runtime.CallersFrames(callers[:n])
	var places []ldPlace
	for {
		frame, more := frames.Next()
		if frame.Function != "" && (len(places) > 0 || !ldIsOurs(frame.Function)) && frame.Function != "runtime.goexit" {
			places = append(places, ldPlace{ldVisible(frame.File) + ":" + ldDigits(uint64(frame.Line)), ldVisible(frame.Function)})
		}
		if !more {
			return places
		}
	}
}

func ldIsOurs(function string) bool {
	return ldBegins(function, "runtime.") || ldBegins(function, "sync.") || ldBegins(function, "reflect.")
}

func ldBegins(text, beginning string) bool {
	return len(text) >= len(beginning) && text[:len(beginning)] == beginning
}

// A text without letters that would end a word or a line.
func ldVisible(text string) string {
	letters := []byte(text)
	for at, letter := range letters {
		if letter <= ' ' || letter == 0x7f {
			letters[at] = '_'
		}
	}
	return string(letters)
}
