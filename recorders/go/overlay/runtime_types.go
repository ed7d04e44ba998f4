package runtime

// ---- Types, as the compiler lays them out: reflect's rtype, structType and arrayType.

type lockdepType struct {
	size, pointers           uintptr
	hash                     uint32
	flags, align, fieldAlign uint8
	kind                     uint8
	equal                    unsafe.Pointer
	gcdata                   unsafe.Pointer
	name, pointerToThis      int32
}

type lockdepField struct {
	name   *byte
	typ    *lockdepType
	offset uintptr
}

type lockdepStruct struct {
	lockdepType
	path   *byte
	fields []lockdepField
}

// What stands behind a structure that has a name.
type lockdepNamed struct {
	lockdepStruct
	path int32
}

type lockdepArray struct {
	lockdepType
	elem, slice *lockdepType
	length      uintptr
}

const (
	lockdepKindMask    = 31
	lockdepKindArray   = 17
	lockdepKindStruct  = 25
	lockdepIsUncommon  = 1
	lockdepHasStar     = 2
	lockdepIsNamed     = 4
	lockdepNameHeader  = 1 // bytes before the length of a name
	lockdepMostPerByte = 7 // bits of a length in each of its bytes
)

func lockdepIsLock(t *lockdepType) bool {
	return t == lockdepMutex || t == lockdepRWMutex || t == lockdepOnce
}

// Whether an object of a type has a lock in it.
func lockdepHasLock(t *lockdepType) bool {
	if lockdepIsLock(t) {
		return true
	}
	switch t.kind & lockdepKindMask {
	case lockdepKindArray:
		array := (*lockdepArray)(unsafe.Pointer(t))
		return array.length > 0 && lockdepHasLock(array.elem)
	case lockdepKindStruct:
		fields := (*lockdepStruct)(unsafe.Pointer(t)).fields
		for i := range fields {
			if lockdepHasLock(fields[i].typ) {
				return true
			}
		}
	}
	return false
}

// The same, from a table of what was asked before: a type's address, and 1 if it has a lock.
func lockdepKnownLock(t *lockdepType) bool {
	at := uintptr(unsafe.Pointer(t))
	slot := &lockdepTypes[at>>5%lockdepTypeSlots]
	known := atomic.Loaduintptr(slot)
	if known&^1 == at {
		return known&1 != 0
	}
	has := lockdepHasLock(t)
	if has {
		at |= 1
	}
	atomic.Storeuintptr(slot, at)
	return has
}

// A name as types have it: a byte of flags, the length, and the letters.
func lockdepNameText(name *byte) string {
	if name == nil {
		return ""
	}
	length, shift, at := 0, uint(0), uintptr(lockdepNameHeader)
	for {
		part := *(*byte)(add(unsafe.Pointer(name), at))
		at++
		length |= int(part&0x7f) << shift
		if part&0x80 == 0 {
			break
		}
		shift += lockdepMostPerByte
	}
	text := make([]byte, length)
	for i := range text {
		text[i] = *(*byte)(add(unsafe.Pointer(name), at+uintptr(i)))
	}
	return string(text)
}

// What a type is called, with the path of its package; empty if it has no name.
func lockdepTypeName(t *lockdepType) string {
	if t.flags&lockdepIsNamed == 0 {
		return ""
	}
	text := lockdepNameText((*byte)(reflect_resolveNameOff(unsafe.Pointer(t), t.name)))
	if t.flags&lockdepHasStar != 0 {
		text = text[1:]
	}
	if t.flags&lockdepIsUncommon == 0 || t.kind&lockdepKindMask != lockdepKindStruct {
		return text
	}
	path := lockdepNameText((*byte)(reflect_resolveNameOff(unsafe.Pointer(t), (*lockdepNamed)(unsafe.Pointer(t)).path)))
	for i := 0; i < len(text) && text[i] != '['; i++ {
		if text[i] == '.' {
			return path + text[i:]
		}
	}
	return text
}

// Whether a structure only stands for a lock, as one that somebody wraps round sync.Mutex, or sync.Map. The structure around it says more.
func lockdepIsWrapper(t *lockdepType, name string) bool {
	const most = 64
	if len(name) > 5 && name[:5] == "sync." {
		return true
	}
	if t.size > most {
		return false
	}
	for i := 0; i < len(name); i++ {
		rest := name[i:]
		if len(rest) >= 5 && (rest[:5] == "Mutex" || rest[:5] == "mutex") || len(rest) >= 4 && (rest[:4] == "Lock" || rest[:4] == "lock") {
			return true
		}
	}
	return false
}

// What a lock is called that lies at an offset in an object of a type: the innermost structure with a name, and the way from there. Empty
// if there is none, or no type.
func lockdepMember(t *lockdepType, offset uintptr) string {
	outer, way := "", ""
	for t != nil && !lockdepIsLock(t) {
		switch t.kind & lockdepKindMask {
		case lockdepKindArray:
			t = (*lockdepArray)(unsafe.Pointer(t)).elem
			offset %= t.size
			way += "[]"
		case lockdepKindStruct:
			if name := lockdepTypeName(t); name != "" && (outer == "" || !lockdepIsWrapper(t, name)) {
				outer, way = name, ""
			}
			field := lockdepFieldAt(t, offset)
			if field == nil {
				return ""
			}
			t, offset = field.typ, offset-field.offset
			way += "." + lockdepNameText(field.name)
		default:
			return ""
		}
	}
	if outer == "" || len(outer) > 5 && outer[:5] == "sync." {
		return ""
	}
	return outer + way
}

// The field with a lock that has an offset in it.
func lockdepFieldAt(t *lockdepType, offset uintptr) *lockdepField {
	fields := (*lockdepStruct)(unsafe.Pointer(t)).fields
	for i := range fields {
		field := &fields[i]
		if offset >= field.offset && offset-field.offset < field.typ.size && lockdepHasLock(field.typ) {
			return field
		}
	}
	return nil
}
