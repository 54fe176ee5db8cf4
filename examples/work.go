// Command work is busy and keeps memory, and writes Go's profiles of itself into a folder.
//
//	work FOLDER SECONDS
package main

import (
	"context"
	"crypto/sha256"
	"encoding/json"
	"fmt"
	"os"
	"path/filepath"
	"regexp"
	"runtime"
	"runtime/pprof"
	"sort"
	"strings"
	"sync"
	"time"
)

type node struct {
	Name  string
	Nodes []*node
}

func grow(depth int) *node {
	made := &node{Name: strings.Repeat("n", depth+1)}
	for i := 0; i < depth; i++ {
		made.Nodes = append(made.Nodes, grow(depth-1))
	}
	return made
}

func fib(n int) int {
	if n < 2 {
		return n
	}
	return fib(n-1) + fib(n-2)
}

func sorted(seed int) []string {
	var lines []string
	for i := 0; i < 2000; i++ {
		sum := sha256.Sum256([]byte(fmt.Sprint(seed, i)))
		lines = append(lines, fmt.Sprintf("%x", sum[:6]))
	}
	sort.Slice(lines, func(i, j int) bool { return lines[i] < lines[j] })
	return lines
}

func matches(lines []string) int {
	word := regexp.MustCompile(`(a|b)+[0-9]c?`)
	found := 0
	for _, line := range lines {
		found += len(word.FindAllString(line, -1))
	}
	return found
}

var (
	kept   []any
	shared sync.Mutex
)

func share(value any) {
	shared.Lock()
	defer shared.Unlock()
	time.Sleep(time.Millisecond)
	kept = append(kept, value)
}

func worker(number int, end time.Time, done chan<- int) {
	pprof.Do(context.Background(), pprof.Labels("worker", fmt.Sprint(number)), func(context.Context) {
		for round := 0; time.Now().Before(end); round++ {
			tree := grow(6)
			text, _ := json.Marshal(tree)
			lines := sorted(number*1000 + round)
			share(append([]byte(nil), text[:100+fib(12)]...))
			share(matches(lines))
		}
		done <- number
	})
}

func write(folder, name string) {
	file, err := os.Create(filepath.Join(folder, name+".pb.gz"))
	if err != nil {
		panic(err)
	}
	defer file.Close()
	if err := pprof.Lookup(name).WriteTo(file, 0); err != nil {
		panic(err)
	}
}

func main() {
	folder := os.Args[1]
	length, err := time.ParseDuration(os.Args[2])
	if err != nil {
		panic(err)
	}
	runtime.SetMutexProfileFraction(1)
	runtime.SetBlockProfileRate(1)
	runtime.MemProfileRate = 512
	cpu, err := os.Create(filepath.Join(folder, "cpu.pb.gz"))
	if err != nil {
		panic(err)
	}
	defer cpu.Close()
	if err := pprof.StartCPUProfile(cpu); err != nil {
		panic(err)
	}
	done := make(chan int)
	for number := 0; number < 4; number++ {
		go worker(number, time.Now().Add(length), done)
	}
	for number := 0; number < 4; number++ {
		<-done
	}
	pprof.StopCPUProfile()
	stop := make(chan int)
	for number := 0; number < 10; number++ {
		go func() { <-stop }()
	}
	runtime.GC()
	for _, name := range []string{"heap", "allocs", "goroutine", "threadcreate", "block", "mutex"} {
		write(folder, name)
	}
}
