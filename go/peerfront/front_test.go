package peerfront

import (
	"bufio"
	"bytes"
	"context"
	"encoding/binary"
	"fmt"
	"io"
	"net"
	"net/http"
	"net/http/httptest"
	"os"
	"os/exec"
	"strings"
	"testing"
)

// program gives the path of the built peer_front, or skips the test.
func program(t *testing.T) string {
	path := os.Getenv("PEER_FRONT")
	if path == "" {
		path = "../../crates/peer_front/out/peer_front"
	}
	if _, err := os.Stat(path); err != nil {
		t.Skipf("no program %s: run ./build at the top, or set PEER_FRONT", path)
	}
	return path
}

// front starts peer_front in front of these groups, and gives its address.
func front(t *testing.T, words ...string) string {
	listener, err := net.Listen("tcp", "127.0.0.1:0")
	if err != nil {
		t.Fatal(err)
	}
	address := listener.Addr().String()
	listener.Close()
	command := exec.Command(program(t), append([]string{"--listen", address}, words...)...)
	out, err := command.StdoutPipe()
	if err == nil {
		err = command.Start()
	}
	if err != nil {
		t.Fatal(err)
	}
	t.Cleanup(func() {
		command.Process.Kill()
		command.Wait()
	})
	if line, err := bufio.NewReader(out).ReadString('\n'); line != "listening\n" {
		t.Fatalf("it says %q %v", line, err)
	}
	return address
}

// escaped gives a key as a path, each byte escaped.
func escaped(key []byte) string {
	var path strings.Builder
	for _, b := range key {
		fmt.Fprintf(&path, "%%%02X", b)
	}
	return path.String()
}

// valueOf gives the value in a reply of a peer: the byte 0A, the length as a varint, and the value.
func valueOf(content []byte) ([]byte, bool) {
	if len(content) < 2 || content[0] != 0x0a {
		return nil, false
	}
	length, size := binary.Uvarint(content[1:])
	rest := content[1+size:]
	return rest, size > 0 && uint64(len(rest)) == length
}

func ask(t *testing.T, address, path string) (int, []byte) {
	response, err := http.Get("http://" + address + "/_groupcache/" + path)
	if err != nil {
		t.Fatal(err)
	}
	defer response.Body.Close()
	content, err := io.ReadAll(response.Body)
	if err != nil {
		t.Fatal(err)
	}
	return response.StatusCode, content
}

// reversed gives a value that tells its key.
func reversed(_ context.Context, key string) ([]byte, error) {
	value := []byte("value of ")
	for i := len(key) - 1; i >= 0; i-- {
		value = append(value, key[i])
	}
	return value, nil
}

// Each byte as a key, and all bytes in one, go through peer_front to the getter, and their values come back.
func TestKeysOfAllBytes(t *testing.T) {
	service := httptest.NewServer(Origin{"all": reversed})
	defer service.Close()
	address := front(t, Origin{"all": nil}.Words(service.URL)...)
	keys := [][]byte{nil, []byte("//"), []byte(".."), []byte("?k=&x"), bytes.Repeat([]byte{'k'}, 4000)}
	var all []byte
	for b := 0; b < 256; b++ {
		all = append(all, byte(b))
		keys = append(keys, []byte{byte(b)}, []byte{'a', byte(b), 'b'})
	}
	for _, key := range append(keys, all) {
		want, _ := reversed(nil, string(key))
		status, content := ask(t, address, "all/"+escaped(key))
		value, ok := valueOf(content)
		if status != 200 || !ok || !bytes.Equal(value, want) {
			t.Errorf("%q: %d %q", key, status, content)
		}
	}
}

// What a getter returns is what clients of peer_front get.
func TestErrorsThroughTheServer(t *testing.T) {
	service := httptest.NewServer(origin)
	defer service.Close()
	groups := Origin{"none": nil, "broken": nil, "late": nil, "longest": nil, "longer": nil}
	address := front(t, groups.Words(service.URL)...)
	for group, want := range map[string]string{
		"none":   "no such key\n",
		"broken": "origin answered 500\n",
		"late":   "origin answered 504\n",
		"longer": "origin answered 507\n",
	} {
		if status, content := ask(t, address, group+"/k"); status != 500 || string(content) != want {
			t.Errorf("%s: %d %q, not %q", group, status, content, want)
		}
	}
	status, content := ask(t, address, "longest/k")
	if value, ok := valueOf(content); status != 200 || !ok || len(value) != MaxValue {
		t.Errorf("the longest value: %d, %d bytes", status, len(content))
	}
}
