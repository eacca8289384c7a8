// Asks a server for every line of a table, through groupcache's own client, and compares every value.
//
//	main TABLE http://ADDRESS
//
// The table has lines of group, tab, key, tab, value. The last two checks ask for a group and for a key that the table
// does not have: the server answers 404 and 500, and the client falls back on its own getter.
package main

import (
	"bufio"
	"context"
	"errors"
	"fmt"
	"net/http"
	"os"
	"strings"
	"sync"
	"sync/atomic"

	"github.com/golang/groupcache"
)

const callers = 8

var errFellBack = errors.New("the peer has no value")

type line struct{ group, key, value string }

func read(path string) []line {
	file, err := os.Open(path)
	if err != nil {
		fmt.Fprintln(os.Stderr, err)
		os.Exit(2)
	}
	defer file.Close()
	var lines []line
	scanner := bufio.NewScanner(file)
	scanner.Buffer(nil, 2<<20)
	for scanner.Scan() {
		fields := strings.Split(scanner.Text(), "\t")
		lines = append(lines, line{fields[0], fields[1], fields[2]})
	}
	return lines
}

// watcher notes the status of the last answer.
type watcher struct {
	base   http.RoundTripper
	status atomic.Value
}

func (w *watcher) RoundTrip(r *http.Request) (*http.Response, error) {
	res, err := w.base.RoundTrip(r)
	if res != nil {
		w.status.Store(res.StatusCode)
	}
	return res, err
}

func main() {
	lines, peer := read(os.Args[1]), os.Args[2]
	watch := &watcher{base: &http.Transport{MaxIdleConnsPerHost: callers, MaxConnsPerHost: callers}}
	pool := groupcache.NewHTTPPoolOpts("http://self.invalid", nil)
	pool.Transport = func(context.Context) http.RoundTripper { return watch }
	pool.Set(peer)

	// Caches of no bytes: each Get asks the peer.
	getter := groupcache.GetterFunc(func(context.Context, string, groupcache.Sink) error { return errFellBack })
	groups := map[string]*groupcache.Group{"absent": groupcache.NewGroup("absent", 0, getter)}
	for _, l := range lines {
		if groups[l.group] == nil {
			groups[l.group] = groupcache.NewGroup(l.group, 0, getter)
		}
	}
	get := func(group, key string) (string, error) {
		var value string
		err := groups[group].Get(context.Background(), key, groupcache.StringSink(&value))
		return value, err
	}

	var failures int64
	work := make(chan line)
	var all sync.WaitGroup
	for i := 0; i < callers; i++ {
		all.Add(1)
		go func() {
			defer all.Done()
			for l := range work {
				if value, err := get(l.group, l.key); err != nil || value != l.value {
					atomic.AddInt64(&failures, 1)
				}
			}
		}()
	}
	for _, l := range lines {
		work <- l
	}
	close(work)
	all.Wait()

	refused := func(group, key string, status int) {
		if _, err := get(group, key); err != errFellBack || watch.status.Load() != status {
			failures++
		}
	}
	refused("absent", "k", http.StatusNotFound)
	refused(lines[0].group, "no such key", http.StatusInternalServerError)
	fmt.Printf("checks %d failures %d\n", len(lines)+2, failures)
	if failures != 0 {
		os.Exit(1)
	}
}
