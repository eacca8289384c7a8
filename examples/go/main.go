// A program on groupcache whose peers are peer_serve processes: the library picks a peer for each key by consistent
// hashing, and where that peer fails, the program's own getter fills.
//
// Each value is compared with the program's own, and each comparison is a check. The last line is `checks N failures M`.
package main

import (
	"bufio"
	"bytes"
	"context"
	"errors"
	"flag"
	"fmt"
	"net/http"
	"os"
	"strconv"
	"strings"
	"sync"
	"sync/atomic"

	"github.com/golang/groupcache"
)

var errRefused = errors.New("refused")

// ask is a key, and what it has to give: a value, or an error where there is none.
type ask struct {
	group, key string
	value      []byte
	found      bool
}

var checks, failures int64

func check(ok bool, format string, words ...interface{}) {
	atomic.AddInt64(&checks, 1)
	if !ok {
		atomic.AddInt64(&failures, 1)
		fmt.Printf("FAIL "+format+"\n", words...)
	}
}

// answer is the program's own getter: what peer_serve's source for demonstrations answers.
func answer(group, key string) ([]byte, error) {
	n, err := strconv.ParseUint(key, 10, 64)
	switch {
	case group == "echo":
		return []byte(key), nil
	case group == "square" && err == nil && len(key) <= 9:
		return []byte(strconv.FormatUint(n*n, 10)), nil
	case group == "fill" && err == nil && len(key) <= 7 && n <= 1<<20:
		return bytes.Repeat([]byte("x"), int(n)), nil
	}
	return nil, errRefused
}

// demonstration lists keys of the three groups, with those that are refused.
func demonstration(count int) []ask {
	var asks []ask
	add := func(group, key string) {
		value, err := answer(group, key)
		asks = append(asks, ask{group, key, value, err == nil})
	}
	for i := 0; i < count; i++ {
		add("echo", fmt.Sprintf("key-%d", i))
		add("square", strconv.Itoa(i))
	}
	for b := 0; b < 256; b++ {
		if b != ' ' { // the library writes a space as "+", and a server reads a path, where "+" is a plus
			add("echo", "byte-"+string([]byte{byte(b)}))
		}
	}
	for _, key := range []string{"a/b", "//", "a/../b", "%41", "?x=1", "#", "é", "日本語", strings.Repeat("\xff", 2000)} {
		add("echo", key)
	}
	for _, key := range []string{"0", "1", "127", "128", "16383", "16384", "65536", "1048575", "1048576"} {
		add("fill", key)
	}
	for _, key := range []string{"x", "-1", "1234567890"} {
		add("square", key)
		add("fill", key)
	}
	add("fill", "1048577")
	return asks
}

// run asks for everything, from eight goroutines, and compares.
func run(groups map[string]*groupcache.Group, asks []ask) {
	jobs := make(chan ask)
	var running sync.WaitGroup
	for i := 0; i < 8; i++ {
		running.Add(1)
		go func() {
			defer running.Done()
			for a := range jobs {
				var got []byte
				err := groups[a.group].Get(context.Background(), a.key, groupcache.AllocatingByteSliceSink(&got))
				check((err == nil) == a.found && bytes.Equal(got, a.value), "%s/%.40q: %v, %d bytes", a.group, a.key, err, len(got))
			}
		}()
	}
	for _, a := range asks {
		jobs <- a
	}
	close(jobs)
	running.Wait()
}

// counting counts the requests to each peer.
type counting struct {
	mu    sync.Mutex
	hosts map[string]int
}

func (c *counting) RoundTrip(r *http.Request) (*http.Response, error) {
	c.mu.Lock()
	c.hosts[r.URL.Host]++
	c.mu.Unlock()
	return http.DefaultTransport.RoundTrip(r)
}

func main() {
	peers := flag.String("peers", "", "base URLs of the servers, with commas between them")
	halfway := flag.Bool("halfway", false, "say `halfway` and wait for a line, and then ask for more: a server may be ended")
	flag.Parse()

	// A pool whose peers are the servers, and groups with a getter of one's own. The transport is Go's usual one: for use take that
	// of go/peerfront.
	transport := &counting{hosts: map[string]int{}}
	pool := groupcache.NewHTTPPoolOpts("http://self.invalid", nil)
	pool.Transport = func(context.Context) http.RoundTripper { return transport }
	urls := strings.Split(*peers, ",")
	pool.Set(urls...)

	asks := demonstration(500)
	var local int64
	groups := map[string]*groupcache.Group{}
	for _, a := range asks {
		if name := a.group; groups[name] == nil {
			groups[name] = groupcache.NewGroup(name, 0, groupcache.GetterFunc(func(_ context.Context, key string, dest groupcache.Sink) error {
				atomic.AddInt64(&local, 1)
				value, err := answer(name, key)
				if err != nil {
					return errRefused
				}
				return dest.SetBytes(value)
			}))
		}
	}

	run(groups, asks)
	refused := int64(0)
	for _, a := range asks {
		if !a.found {
			refused++
		}
	}
	check(local == refused, "the own getter was called %d times, and %d keys are refused", local, refused)
	check(len(transport.hosts) == len(urls), "%d of %d peers were asked", len(transport.hosts), len(urls))
	if *halfway {
		fmt.Println("halfway")
		bufio.NewReader(os.Stdin).ReadString('\n')
		before := local
		run(groups, asks)
		check(local > before+refused, "the own getter was not called for the server that is gone")
	}
	fmt.Printf("checks %d failures %d\n", checks, failures)
	if failures != 0 {
		os.Exit(1)
	}
}
