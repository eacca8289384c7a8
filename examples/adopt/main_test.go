package main

import (
	"bufio"
	"fmt"
	"io"
	"net"
	"net/http"
	"os"
	"os/exec"
	"regexp"
	"strconv"
	"strings"
	"testing"
	"time"
)

// The test starts itself as the program, by this variable.
const asProgram = "ADOPT_AS_PROGRAM"

func TestMain(m *testing.M) {
	if os.Getenv(asProgram) != "" {
		main()
		os.Exit(0)
	}
	os.Exit(m.Run())
}

func adopt(words ...string) *exec.Cmd {
	command := exec.Command(os.Args[0], words...)
	command.Env = append(os.Environ(), asProgram+"=1")
	return command
}

// printed gives what the program prints, and what it logs.
func printed(t *testing.T, words ...string) (string, string) {
	command := adopt(words...)
	var logged strings.Builder
	command.Stderr = &logged
	text, err := command.Output()
	if err != nil {
		t.Fatalf("%v: %v %s", words, err, logged.String())
	}
	return string(text), logged.String()
}

func freeAddress(t *testing.T) string {
	listener, err := net.Listen("tcp", "127.0.0.1:0")
	if err != nil {
		t.Fatal(err)
	}
	defer listener.Close()
	return listener.Addr().String()
}

// begin starts a command, and ends it with the test.
func begin(t *testing.T, command *exec.Cmd) func() {
	if err := command.Start(); err != nil {
		t.Fatal(err)
	}
	end := func() {
		command.Process.Kill()
		command.Wait()
	}
	t.Cleanup(end)
	return end
}

func waitFor(t *testing.T, address string) {
	for i := 0; i < 200; i++ {
		if stream, err := net.Dial("tcp", address); err == nil {
			stream.Close()
			return
		}
		time.Sleep(50 * time.Millisecond)
	}
	t.Fatalf("nothing listens at %s", address)
}

// front starts peer_front in front of the service, and gives its address, that of its counters, and a function that ends it.
func front(t *testing.T, service string) (string, string, func()) {
	program := os.Getenv("PEER_FRONT")
	if program == "" {
		program = "../../crates/peer_front/out/peer_front"
	}
	if _, err := os.Stat(program); err != nil {
		t.Skipf("no program %s: run ./build at the top, or set PEER_FRONT", program)
	}
	address, stats := freeAddress(t), freeAddress(t)
	command := exec.Command(program, "--listen", address, "--stats", stats, "colors=http://"+service+"/values/colors?k=")
	out, err := command.StdoutPipe()
	if err != nil {
		t.Fatal(err)
	}
	end := begin(t, command)
	if line, err := bufio.NewReader(out).ReadString('\n'); line != "listening\n" {
		t.Fatalf("it says %q %v", line, err)
	}
	return address, stats, end
}

// asked gives how many requests for values a server had.
func asked(t *testing.T, stats string) int {
	response, err := http.Get("http://" + stats + "/metrics")
	if err != nil {
		t.Fatal(err)
	}
	defer response.Body.Close()
	page, _ := io.ReadAll(response.Body)
	found := regexp.MustCompile(`(?m)^peer_front_asked_total (\d+)$`).FindSubmatch(page)
	if found == nil {
		t.Fatalf("no counter: %s", page)
	}
	count, _ := strconv.Atoi(string(found[1]))
	return count
}

const want = "red #ff0000 <nil>\nblue #0000ff <nil>\nmauve  no such key\n"

var keys = []string{"red", "blue", "mauve"}

func TestWithoutServers(t *testing.T) {
	if got, logged := printed(t, keys...); got != want || logged != "" {
		t.Errorf("%q %q", got, logged)
	}
}

func TestBesideThreeServers(t *testing.T) {
	service := freeAddress(t)
	begin(t, adopt("-serve", service))
	waitFor(t, service)
	var peers, pages []string
	var ends []func()
	for i := 0; i < 3; i++ {
		address, stats, end := front(t, service)
		peers, pages, ends = append(peers, "http://"+address), append(pages, stats), append(ends, end)
	}
	words := append([]string{"-peers", strings.Join(peers, ",")}, keys...)
	if got, logged := printed(t, words...); got != want || logged != "" {
		t.Errorf("beside its servers: %q %q", got, logged)
	}
	sum := 0
	for _, stats := range pages {
		sum += asked(t, stats)
	}
	if sum != len(keys) {
		t.Errorf("the servers had %d requests", sum)
	}
	for _, end := range ends {
		end()
	}
	got, logged := printed(t, words...)
	if told := strings.Count(logged, "no value: "); got != want || told != len(keys) {
		t.Errorf("with its servers gone: %q %q", got, logged)
	}
	for _, key := range keys {
		if !strings.Contains(logged, fmt.Sprintf("Group:colors Key:%s Status:0", key)) {
			t.Errorf("no line about %s: %s", key, logged)
		}
	}
}
