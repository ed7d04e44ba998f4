package sync

// ---- What programs call.

//go:noinline
func (m *Mutex) Lock() {
	if !ldOn {
		m.rawLock()
		return
	}
	ldAcquire(uintptr(unsafe.Pointer(m)), ldWriter, m.rawTryLock, m.rawLock)
}

//go:noinline
func (m *Mutex) TryLock() bool {
	isTaken := m.rawTryLock()
	if ldOn && isTaken {
		ldTaken(uintptr(unsafe.Pointer(m)), ldTriedWriter)
	}
	return isTaken
}

func (m *Mutex) Unlock() {
	if ldOn {
		ldRelease(uintptr(unsafe.Pointer(m)))
	}
	m.rawUnlock()
}

//go:noinline
func (rw *RWMutex) Lock() {
	if !ldOn {
		rw.rawLock()
		return
	}
	ldAcquire(uintptr(unsafe.Pointer(rw)), ldWriter, rw.rawTryLock, rw.rawLock)
}

//go:noinline
func (rw *RWMutex) TryLock() bool {
	isTaken := rw.rawTryLock()
	if ldOn && isTaken {
		ldTaken(uintptr(unsafe.Pointer(rw)), ldTriedWriter)
	}
	return isTaken
}

func (rw *RWMutex) Unlock() {
	if ldOn {
		ldRelease(uintptr(unsafe.Pointer(rw)))
	}
	rw.rawUnlock()
}

//go:noinline
func (rw *RWMutex) RLock() {
	if !ldOn {
		rw.rawRLock()
		return
	}
	ldAcquire(uintptr(unsafe.Pointer(rw)), ldReader, rw.rawTryRLock, rw.rawRLock)
}

//go:noinline
func (rw *RWMutex) TryRLock() bool {
	isTaken := rw.rawTryRLock()
	if ldOn && isTaken {
		ldTaken(uintptr(unsafe.Pointer(rw)), ldTriedReader)
	}
	return isTaken
}

func (rw *RWMutex) RUnlock() {
	if ldOn {
		ldRelease(uintptr(unsafe.Pointer(rw)))
	}
	rw.rawRUnlock()
}

func (o *Once) ldLock() {
	if !ldOn {
		o.m.rawLock()
		return
	}
	ldAcquire(uintptr(unsafe.Pointer(o)), ldWriter, o.m.rawTryLock, o.m.rawLock)
}

func (o *Once) ldUnlock() {
	if ldOn {
		ldRelease(uintptr(unsafe.Pointer(o)))
	}
	o.m.rawUnlock()
}

// A call of Do waits if another goroutine runs the function, so with other locks held it is an acquisition, whether it has run or not.
func (o *Once) ldCall() {
	if !ldOn {
		return
	}
	if task, goroutine := lockdep_task(); task == nil || task.goroutine != goroutine || len(task.holds) == 0 {
		return
	}
	ldTaken(uintptr(unsafe.Pointer(o)), ldWriter)
	ldRelease(uintptr(unsafe.Pointer(o)))
}
