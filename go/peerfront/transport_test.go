package peerfront

import (
	"errors"
	"io"
	"net/http"
	"net/http/httptest"
	"strings"
	"testing"
)

func TestWatchTellsMisses(t *testing.T) {
	server := httptest.NewServer(http.HandlerFunc(func(w http.ResponseWriter, r *http.Request) {
		if strings.HasSuffix(r.URL.Path, "/red") {
			io.WriteString(w, "value")
			return
		}
		http.Error(w, "no such key", http.StatusInternalServerError)
	}))
	var misses []Miss
	watched := Watch(Transport(), func(m Miss) { misses = append(misses, m) })
	ask := func(path string) string {
		request, _ := http.NewRequest("GET", server.URL+path, nil)
		response, err := watched.RoundTrip(request)
		if err != nil {
			return "error"
		}
		defer response.Body.Close()
		content, _ := io.ReadAll(response.Body)
		return string(content)
	}
	if got := ask("/_groupcache/colors/red"); got != "value" || len(misses) != 0 {
		t.Fatalf("a value: %q, misses %v", got, misses)
	}
	if got := ask("/_groupcache/a+b/c%2Fd%25"); got != "no such key\n" {
		t.Errorf("groupcache reads %q of an error", got)
	}
	server.Close()
	if got := ask("/_groupcache/colors/blue"); got != "error" || len(misses) != 2 {
		t.Fatalf("a server that is gone: %q, misses %v", got, misses)
	}
	host := strings.TrimPrefix(server.URL, "http://")
	if want := (Miss{Peer: host, Group: "a b", Key: "c/d%", Status: 500, Text: "no such key"}); misses[0] != want {
		t.Errorf("%+v, not %+v", misses[0], want)
	}
	gone := misses[1]
	if gone.Err == nil || gone.Status != 0 || gone.Group != "colors" || gone.Key != "blue" {
		t.Errorf("%+v", gone)
	}
}

type failing struct{}

func (failing) Read([]byte) (int, error) { return 0, errors.New("cut") }
func (failing) Close() error             { return nil }

type cutting struct{}

func (cutting) RoundTrip(*http.Request) (*http.Response, error) {
	return &http.Response{StatusCode: 502, Body: failing{}}, nil
}

// An error whose text is cut is told with what was read of it, and read as it is by who comes next.
func TestWatchTellsCutTexts(t *testing.T) {
	var miss Miss
	request, _ := http.NewRequest("GET", "http://h/_groupcache/g/k", nil)
	response, err := Watch(cutting{}, func(m Miss) { miss = m }).RoundTrip(request)
	if err != nil || miss.Status != 502 || miss.Err == nil {
		t.Fatalf("%v %+v", err, miss)
	}
	if _, err := io.ReadAll(response.Body); err == nil {
		t.Error("the fault of the body is lost")
	}
}
