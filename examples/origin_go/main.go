// A program on groupcache whose peers are three peer_front processes, in front of an HTTP service that is ended midway.
//
//	./build
//	apt-get install golang-go golang-github-golang-groupcache-dev
//	GO111MODULE=off GOPATH=/usr/share/gocode go run examples/origin_go/main.go [crates/peer_front/out/peer_front]
//
// 64 callers ask groupcache for 10,000 keys, and each value is compared. The service does not have one key in a hundred,
// and takes 100 ms for another one. It is ended at the 4,000th ask and started again at the 6,000th: in between an ask
// may be an error, on which groupcache calls the getter of this program. Then all keys are asked for once more, and only
// those that the service does not have may be errors. The last line is `checks N failures 0`; where a check fails, the
// status is 1.
package main

import (
	"bufio"
	"bytes"
	"context"
	"crypto/sha256"
	"encoding/hex"
	"errors"
	"fmt"
	"io"
	"net"
	"net/http"
	"os"
	"os/exec"
	"strings"
	"sync"
	"sync/atomic"
	"time"

	"github.com/golang/groupcache"
)

const (
	keyCount  = 10000
	callers   = 64
	endAt     = 4000
	beginAt   = 6000
	slowness  = 100 * time.Millisecond
	noSuchKey = "no such key\n"
)

// What is done with the service: it was never ended, it is ended, it was started again.
const (
	up = iota
	gone
	back
)

var errFellBack = errors.New("no peer has the value")

var checks, failures int64

func check(right bool, format string, words ...interface{}) {
	atomic.AddInt64(&checks, 1)
	if !right && atomic.AddInt64(&failures, 1) <= 20 {
		fmt.Printf("FAIL "+format+"\n", words...)
	}
}

// keyOf gives the key with a number. A server that read a path wrongly would find other keys than these.
func keyOf(i int) string {
	kind := "key"
	switch i % 100 {
	case 7:
		kind = "none"
	case 13:
		kind = "slow"
	}
	return fmt.Sprintf("%s/%d?é%%2F", kind, i)
}

func isMissing(key string) bool { return strings.HasPrefix(key, "none") }

// valueOf computes the value of a key: a text of up to 6,000 bytes.
func valueOf(key string) []byte {
	sum := sha256.Sum256([]byte(key))
	text := "the value of " + key + ": " + strings.Repeat(hex.EncodeToString(sum[:]), 94)
	return []byte(text)[:40+(int(sum[0])*256+int(sum[1]))%5961]
}

// service is the HTTP service in front of which the servers stand.
type service struct {
	address string
	phase   int32
	moving  sync.Mutex
	server  *http.Server
	mu      sync.Mutex
	asked   map[string]int
}

func (s *service) ServeHTTP(w http.ResponseWriter, r *http.Request) {
	key := strings.TrimPrefix(r.URL.Path, "/values/")
	s.mu.Lock()
	s.asked[key]++
	s.mu.Unlock()
	if isMissing(key) {
		http.NotFound(w, r)
		return
	}
	if strings.HasPrefix(key, "slow") {
		time.Sleep(slowness)
	}
	w.Write(valueOf(key))
}

// listen begins to serve at the address of the service, which another program may have for a moment.
func (s *service) listen() {
	var listener net.Listener
	var err error
	for i := 0; i < 50; i++ {
		if listener, err = net.Listen("tcp", s.address); err == nil {
			break
		}
		time.Sleep(100 * time.Millisecond)
	}
	if err != nil {
		fatal(err)
	}
	s.address = listener.Addr().String()
	s.server = &http.Server{Handler: s}
	go s.server.Serve(listener)
}

// end closes the listener and all connections, also those on which a reply is due.
func (s *service) end() {
	s.moving.Lock()
	defer s.moving.Unlock()
	atomic.StoreInt32(&s.phase, gone)
	s.server.Close()
}

func (s *service) begin() {
	s.moving.Lock()
	defer s.moving.Unlock()
	s.listen()
	atomic.StoreInt32(&s.phase, back)
}

// mostAsked tells how often the service was asked for the key that it was asked for most.
func (s *service) mostAsked() int {
	s.mu.Lock()
	defer s.mu.Unlock()
	most := 0
	for _, times := range s.asked {
		if times > most {
			most = times
		}
	}
	return most
}

// peer is a process of the server.
type peer struct {
	address string
	process *exec.Cmd
	over    int32
}

func freeAddress() string {
	listener, err := net.Listen("tcp", "127.0.0.1:0")
	if err != nil {
		fatal(err)
	}
	defer listener.Close()
	return listener.Addr().String()
}

func startPeer(program, word string) *peer {
	p := &peer{address: freeAddress()}
	p.process = exec.Command(program, "--listen", p.address, word)
	out, err := p.process.StdoutPipe()
	if err == nil {
		err = p.process.Start()
	}
	if err != nil {
		fatal(err)
	}
	if line, _ := bufio.NewReader(out).ReadString('\n'); line != "listening\n" {
		fatal(errors.New("a server did not start"))
	}
	go func() {
		p.process.Wait()
		atomic.StoreInt32(&p.over, 1)
	}()
	return p
}

func (p *peer) url() string { return "http://" + p.address }

// watcher looks at the replies of the peers before groupcache does.
type watcher struct {
	http.Transport
	mu     sync.Mutex
	hosts  map[string]int
	errors map[string]int
	lost   int
}

func (w *watcher) RoundTrip(r *http.Request) (*http.Response, error) {
	reply, err := w.Transport.RoundTrip(r)
	w.mu.Lock()
	defer w.mu.Unlock()
	w.hosts[r.URL.Host]++
	if err != nil {
		w.lost++
		return reply, err
	}
	if reply.StatusCode != http.StatusOK {
		text, _ := io.ReadAll(reply.Body)
		reply.Body.Close()
		reply.Body = io.NopCloser(bytes.NewReader(text))
		w.errors[fmt.Sprintf("%d %s", reply.StatusCode, text)]++
	}
	return reply, nil
}

// client is the groupcache of this program.
type client struct {
	group *groupcache.Group
	watch *watcher
	// How often the getter of this program was called.
	fell int64
}

func newClient(urls []string) *client {
	c := &client{watch: &watcher{hosts: map[string]int{}, errors: map[string]int{}}}
	c.watch.MaxIdleConnsPerHost = callers
	c.watch.IdleConnTimeout = 50 * time.Second
	c.watch.ResponseHeaderTimeout = 30 * time.Second
	c.watch.DialContext = (&net.Dialer{Timeout: time.Second}).DialContext
	pool := groupcache.NewHTTPPoolOpts("http://self.invalid", nil)
	pool.Transport = func(context.Context) http.RoundTripper { return c.watch }
	pool.Set(urls...)
	// A cache of no bytes: each ask goes to a peer.
	c.group = groupcache.NewGroup("values", 0, groupcache.GetterFunc(func(context.Context, string, groupcache.Sink) error {
		atomic.AddInt64(&c.fell, 1)
		return errFellBack
	}))
	return c
}

// ask asks for a key and compares its value. It tells whether there was an error.
func (c *client) ask(s *service, key string) bool {
	before := atomic.LoadInt32(&s.phase)
	var got []byte
	err := c.group.Get(context.Background(), key, groupcache.AllocatingByteSliceSink(&got))
	after := atomic.LoadInt32(&s.phase)
	if err == nil {
		check(!isMissing(key) && bytes.Equal(got, valueOf(key)), "%q: a wrong value of %d bytes", key, len(got))
		return false
	}
	wasGone := before != back && after != up
	check(err == errFellBack && (isMissing(key) || wasGone), "%q: %v", key, err)
	return true
}

// askAll asks for all keys, and calls what stands at the number of an ask before it.
func (c *client) askAll(s *service, at map[int]func()) (failed int64) {
	numbers := make(chan int)
	var running sync.WaitGroup
	for i := 0; i < callers; i++ {
		running.Add(1)
		go func() {
			defer running.Done()
			for i := range numbers {
				if act := at[i]; act != nil {
					act()
				}
				if c.ask(s, keyOf(i)) {
					atomic.AddInt64(&failed, 1)
				}
			}
		}()
	}
	for i := 0; i < keyCount; i++ {
		numbers <- i
	}
	close(numbers)
	running.Wait()
	return failed
}

// Ends the servers that were started.
var endPeers = func() {}

func fatal(err error) {
	fmt.Fprintln(os.Stderr, "origin_go:", err)
	endPeers()
	os.Exit(2)
}

func main() {
	program := "crates/peer_front/out/peer_front"
	if len(os.Args) > 1 {
		program = os.Args[1]
	}
	s := &service{address: "127.0.0.1:0", asked: map[string]int{}}
	s.listen()
	var peers []*peer
	endPeers = func() {
		for _, p := range peers {
			p.process.Process.Kill()
		}
	}
	defer endPeers()
	var urls []string
	for i := 0; i < 3; i++ {
		p := startPeer(program, "values=http://"+s.address+"/values/")
		peers, urls = append(peers, p), append(urls, p.url())
	}
	c := newClient(urls)

	missing := int64(0)
	for i := 0; i < keyCount; i++ {
		if isMissing(keyOf(i)) {
			missing++
		}
	}
	most := 0
	first := c.askAll(s, map[int]func(){
		endAt:   func() { most = s.mostAsked(); s.end() },
		beginAt: s.begin,
	})
	check(most == 1, "before it was ended the service was asked for one key %d times", most)
	check(first > missing, "no ask failed while the service was gone")
	check(c.fell == first, "the getter was called %d times for %d errors", c.fell, first)
	second := c.askAll(s, nil)
	check(second == missing, "%d errors for %d keys that the service does not have", second, missing)
	check(c.fell == first+second, "the getter was called %d times for %d errors", c.fell, first+second)
	check(len(c.watch.hosts) == len(peers), "%d of %d servers were asked", len(c.watch.hosts), len(peers))
	check(c.watch.lost == 0, "%d asks had no reply", c.watch.lost)
	for text, times := range c.watch.errors {
		right := text == "500 "+noSuchKey || strings.HasPrefix(text, "500 origin ")
		check(right, "%d replies of %q", times, text)
		fmt.Printf("%6d replies %q\n", times, text)
	}
	for _, p := range peers {
		check(atomic.LoadInt32(&p.over) == 0, "the server at %s ended", p.address)
	}
	fmt.Printf("%d keys, errors: %d while the service was gone for a time, %d behind it\n", keyCount, first, second)
	fmt.Printf("checks %d failures %d\n", checks, failures)
	if failures != 0 {
		endPeers()
		os.Exit(1)
	}
}
