package runtime

// ---- Files. A file is opened for each write, so that the program has no open file that it doesn't know about. Paths end with a NUL.

const (
	lockdepWriteOnly = 0x1
	lockdepReadWrite = 0x2
	lockdepCreate    = 0x40
	lockdepAppend    = 0x400
	lockdepCloseExec = 0x80000
	lockdepAnyUser   = 0666 // a program may switch to another user
	lockdepInterrupt = -4   // EINTR
	lockdepShared    = 1    // MAP_SHARED
	lockdepPrivate   = 2    // MAP_PRIVATE
)

//go:linkname lockdep_append sync.lockdep_append
func lockdep_append(path []byte, data []byte) bool {
	file := open(&path[0], lockdepWriteOnly|lockdepCreate|lockdepAppend|lockdepCloseExec, lockdepAnyUser)
	if file < 0 {
		return false
	}
	for len(data) > 0 {
		n := write1(uintptr(file), unsafe.Pointer(&data[0]), int32(len(data)))
		if n == lockdepInterrupt {
			continue
		}
		if n <= 0 {
			break
		}
		data = data[n:]
	}
	closefd(file)
	return len(data) == 0
}

// Maps a page of a file, which is made, for counts that are there whatever ends the process.
//
//go:linkname lockdep_page sync.lockdep_page
func lockdep_page(path []byte, size uintptr) unsafe.Pointer {
	zeros := make([]byte, size)
	if !lockdep_append(path, zeros) {
		return nil
	}
	file := open(&path[0], lockdepReadWrite|lockdepCloseExec, 0)
	if file < 0 {
		return nil
	}
	page, fault := mmap(nil, size, _PROT_READ|_PROT_WRITE, lockdepShared, file, 0)
	closefd(file)
	if fault != 0 {
		return nil
	}
	return page
}

// A number for the process that no earlier one has had: nanoseconds since 1970.
//
//go:linkname lockdep_clock sync.lockdep_clock
func lockdep_clock() int64 {
	seconds, nanoseconds, _ := time_now()
	return seconds*1000000000 + int64(nanoseconds)
}

//go:linkname lockdep_pid sync.lockdep_pid
func lockdep_pid() int { return getpid() }
