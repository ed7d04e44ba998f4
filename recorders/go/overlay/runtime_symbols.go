package runtime

// ---- The names of globals, from the program's own table of symbols.

type lockdepElf struct {
	_               [16]byte
	kind, machine   uint16
	version         uint32
	entry, programs uint64
	sections        uint64
	flags           uint32
	_               [3]uint16
	size, count     uint16 // of sections
	_               uint16
}

type lockdepSection struct {
	name, kind           uint32
	flags, address       uint64
	offset, size         uint64
	link, info           uint32
	alignment, entrySize uint64
}

type lockdepSymbol struct {
	name        uint32
	info, other uint8
	section     uint16
	value, size uint64
}

const (
	lockdepSymbolTable = 2
	lockdepNoBits      = 8
	lockdepIsObject    = 1
	lockdepInfoMask    = 15
)

var lockdepFile unsafe.Pointer // the file of the program, mapped whole, once that was asked for

func lockdepMap(file int32, size uintptr) unsafe.Pointer {
	mapped, fault := mmap(nil, size, _PROT_READ, lockdepPrivate, file, 0)
	if fault != 0 {
		return nil
	}
	return mapped
}

// Where the last section of a program's file ends. What is mapped reaches to the end of the table of sections.
func lockdepEnd(elf *lockdepElf) uintptr {
	end := uintptr(elf.sections) + uintptr(elf.count)*uintptr(elf.size)
	for i := uintptr(0); i < uintptr(elf.count); i++ {
		section := (*lockdepSection)(add(unsafe.Pointer(elf), uintptr(elf.sections)+i*uintptr(elf.size)))
		if after := uintptr(section.offset + section.size); section.kind != lockdepNoBits && after > end {
			end = after
		}
	}
	return end
}

func lockdepProgram() unsafe.Pointer {
	if lockdepFile != nil {
		return lockdepFile
	}
	path := []byte("/proc/self/exe\x00")
	file := open(&path[0], lockdepCloseExec, 0)
	if file < 0 {
		return nil
	}
	elf := (*lockdepElf)(lockdepMap(file, unsafe.Sizeof(lockdepElf{})))
	if elf != nil {
		elf = (*lockdepElf)(lockdepMap(file, uintptr(elf.sections)+uintptr(elf.count)*uintptr(elf.size)))
	}
	if elf != nil {
		lockdepFile = lockdepMap(file, lockdepEnd(elf))
	}
	closefd(file)
	return lockdepFile
}

// The symbols of the program, and their texts.
func lockdepSymbols() (symbols []lockdepSymbol, texts unsafe.Pointer) {
	program := lockdepProgram()
	if program == nil {
		return nil, nil
	}
	elf := (*lockdepElf)(program)
	sections := add(program, uintptr(elf.sections))
	for i := uintptr(0); i < uintptr(elf.count); i++ {
		section := (*lockdepSection)(add(sections, i*uintptr(elf.size)))
		if section.kind == lockdepSymbolTable {
			strings := (*lockdepSection)(add(sections, uintptr(section.link)*uintptr(elf.size)))
			number := uintptr(section.size) / unsafe.Sizeof(lockdepSymbol{})
			return unsafe.Slice((*lockdepSymbol)(add(program, uintptr(section.offset))), number), add(program, uintptr(strings.offset))
		}
	}
	return nil, nil
}

// What a global is called that an address is in, and how far from its start: NAME+OFFSET. If it has no name, `*NAME+OFFSET` of a variable that
// points to it. `known` is the address of a symbol: where the program lies may differ from what its file says.
//
//go:linkname lockdep_symbol sync.lockdep_symbol
func lockdep_symbol(address, known uintptr, knownName string) (name string, offset uintptr) {
	symbols, texts := lockdepSymbols()
	moved := lockdepMoved(symbols, texts, known, knownName)
	if symbol := lockdepFindSymbol(symbols, address-moved); symbol != nil {
		if name = gostring((*byte)(add(texts, uintptr(symbol.name)))); !lockdepIsMade(name) {
			return name, address - moved - uintptr(symbol.value)
		}
	}
	if word, start := lockdepPointer(address); word != 0 {
		if symbol := lockdepFindSymbol(symbols, word-moved); symbol != nil {
			return "*" + gostring((*byte)(add(texts, uintptr(symbol.name)))), address - start
		}
	}
	return "", 0
}

// Whether a symbol is that of an object that the compiler has made for a variable: PACKAGE..stmp_NUMBER.
func lockdepIsMade(name string) bool {
	const mark = "..stmp_"
	for i := 0; i+len(mark) <= len(name); i++ {
		if name[i:i+len(mark)] == mark {
			return true
		}
	}
	return false
}

// How far the program lies from where its file says: `known` is the address of the symbol called knownName.
func lockdepMoved(symbols []lockdepSymbol, texts unsafe.Pointer, known uintptr, knownName string) uintptr {
	for i := range symbols {
		if gostringnocopy((*byte)(add(texts, uintptr(symbols[i].name)))) == knownName {
			return known - uintptr(symbols[i].value)
		}
	}
	return 0
}

func lockdepFindSymbol(symbols []lockdepSymbol, address uintptr) *lockdepSymbol {
	for i := range symbols {
		symbol := &symbols[i]
		if symbol.info&lockdepInfoMask == lockdepIsObject && uint64(address) >= symbol.value && uint64(address) < symbol.value+symbol.size {
			return symbol
		}
	}
	return nil
}

// The word of the globals that points to the nearest address at or before this one: a variable that points to an object that the compiler made.
func lockdepPointer(address uintptr) (word, start uintptr) {
	const most = 1 << 16 // how long such an object may be
	for _, module := range activeModules() {
		for at := module.data; at < module.ebss-goarch.PtrSize; at += goarch.PtrSize {
			to := *(*uintptr)(unsafe.Pointer(at))
			if to <= address && to > start && address-to < most {
				word, start = at, to
			}
		}
	}
	return word, start
}
