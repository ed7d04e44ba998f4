package sync

// ---- States.

// The state that follows by an acquisition. A lock without a class changes nothing.
func ldStateAfter(before, key uint32, mode uint8) uint32 {
	if key == 0 {
		return before
	}
	step := ldStepKey{before, key<<3 | uint32(mode)}
	state, isKnown := ldSteps[step]
	if !isKnown {
		state = uint32(len(ldStates))
		ldStates = append(ldStates, ldState{})
		ldSteps[step] = state
	}
	return state
}

// Whether a goroutine has to write a state.
func (state *ldState) isNewTo(goroutine uint64) bool {
	if state.first == goroutine || state.second != 0 {
		return false
	}
	if state.first == 0 {
		state.first = goroutine
	} else {
		state.second = goroutine
	}
	return true
}

// Finds the state that follows by what is about to be taken, and writes it if it is new.
func (task *ldTask) follow() {
	taken := task.waits.key<<3 | uint32(task.waits.mode)
	step := task.knownStep(taken)
	if step.to == 0 || step.from != task.state || step.taken != taken {
		step = task.newStep()
	}
	task.waits.before, task.waits.after = task.state, step.to
}

func (task *ldTask) knownStep(taken uint32) *ldStep {
	return &task.known[(task.state*31+taken*7+taken>>3)%ldKnownSteps]
}

// A step that this goroutine hasn't taken yet, or has forgotten. It is kept: all locks of it are told apart that can be.
func (task *ldTask) newStep() *ldStep {
	ldMutex.rawLock()
	task.tellApart()
	state := ldStateAfter(task.state, task.waits.key, task.waits.mode)
	if ldStates[state].isNewTo(task.goroutine) {
		task.write()
	}
	ldMutex.rawUnlock()
	taken := task.waits.key<<3 | uint32(task.waits.mode)
	step := task.knownStep(taken)
	*step = ldStep{task.state, taken, state}
	return step
}

// Writes what is held, and what is about to be taken, as a nest of its own.
func (task *ldTask) write() {
	if task.file == nil {
		task.file = ldFileOf(task.goroutine)
	}
	file := task.file
	if file.records > ldMostRecords {
		ldCount(ldFullTraces)
		return
	}
	ldText = ldText[:0]
	if file.records == 0 {
		ldAdd("N ", ldDigits(uint64(file.number)), "\tgoroutine ", ldDigits(task.goroutine), " ", ldVisible(lockdep_start()), "\n")
	}
	for at := range task.holds {
		file.take(&task.holds[at])
	}
	file.take(&task.waits)
	file.giveBack(&task.waits)
	for at := len(task.holds) - 1; at >= 0; at-- {
		file.giveBack(&task.holds[at])
	}
	number := ldDigits(uint64(1000000 + file.number))[1:]
	if !lockdep_append(ldPath("-"+number), ldText) {
		ldCount(ldUnwritten)
	}
}

func ldFileOf(goroutine uint64) *ldFile {
	if len(ldFiles) == ldMostFiles {
		return ldFiles[goroutine%ldMostFiles]
	}
	file := &ldFile{number: uint32(len(ldFiles) + 1)}
	ldFiles = append(ldFiles, file)
	return file
}

func ldAdd(words ...string) {
	for _, word := range words {
		ldText = append(ldText, word...)
	}
}

// Adds an acquisition, after its lock and its place if the files don't have them.
func (file *ldFile) take(hold *ldHold) {
	if hold.key == 0 {
		return
	}
	if key := &ldKeys[hold.key]; !key.isTold {
		key.isTold = true
		ldAdd("K ", ldDigits(uint64(hold.key)), " ", ldDigits(uint64(key.class)), " ", ldDigits(uint64(key.ordinal)), "\n")
	}
	file.record("A ", hold.key, hold.mode, ldPlaceOf(&hold.callers))
}

func (file *ldFile) giveBack(hold *ldHold) {
	if hold.key != 0 {
		file.record("R ", hold.key, ldReleased, 0)
	}
}

func (file *ldFile) record(letter string, key uint32, mode uint8, place uint32) {
	file.records++
	ldAdd(letter, ldDigits(uint64(file.number)), " ", ldDigits(uint64(key)<<3|uint64(mode)), " ", ldDigits(uint64(place)), "\n")
}

// The number of the callers of an acquisition, which are added if the files don't have them.
func ldPlaceOf(callers *ldCallers) uint32 {
	number, isKnown := ldPlaces[*callers]
	if !isKnown {
		number = uint32(len(ldPlaces) + 1)
		ldPlaces[*callers] = number
		ldAdd("P ", ldDigits(uint64(number)))
		for _, place := range ldOutside(callers[:]) {
			ldAdd("\t", place.text, " ", place.function)
		}
		ldAdd("\n")
	}
	return number
}

// Adds lines to the file of the process.
func ldWrite(lines string) {
	if !lockdep_append(ldPath(""), []byte(lines)) {
		ldCount(ldUnwritten)
	}
}
