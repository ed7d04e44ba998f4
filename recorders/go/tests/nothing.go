// Takes no lock of its own.
package main

import "fmt"

func main() { fmt.Println("done") }
