// Takes a lock, and starts the program that its first argument names; without its own environment if there is a second one.
package main

import (
	"fmt"
	"os"
	"os/exec"
	"sync"
)

var own sync.Mutex

func main() {
	own.Lock()
	defer own.Unlock()
	command := exec.Command(os.Args[1])
	if len(os.Args) > 2 {
		command.Env = []string{"ALONE=1"}
	}
	output, _ := command.CombinedOutput()
	fmt.Print(string(output))
}
