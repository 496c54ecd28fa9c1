// The pipeline of `fmc demo N`, by goroutines and channels.
package main

import (
	"fmt"
	"os"
	"strconv"
)

func main() {
	number, _ := strconv.Atoi(os.Args[1])
	stages, messages := 20+number%180, 100+number%900
	first := make(chan int)
	go func() {
		for i := 1; i <= messages; i++ {
			first <- i
		}
		close(first)
	}()
	in := first
	for s := 1; s <= stages; s++ {
		from, to, added := in, make(chan int), (number+7*s)%100
		go func() {
			for i := range from {
				to <- (i + added) % 1009
			}
			close(to)
		}()
		in = to
	}
	sum := 0
	for i := range in {
		sum += i
	}
	fmt.Println(sum)
}
