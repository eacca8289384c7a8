package peerfront

import (
	"context"
	"errors"
	"fmt"
	"net/http"
	"net/http/httptest"
	"reflect"
	"strconv"
	"testing"
)

// A getter for each kind of answer.
var origin = Origin{
	"echo": func(_ context.Context, key string) ([]byte, error) { return []byte(key), nil },
	"none": func(_ context.Context, key string) ([]byte, error) {
		return nil, fmt.Errorf("%q: %w", key, ErrNotFound)
	},
	"broken": func(context.Context, string) ([]byte, error) { return nil, errors.New("the disk is full") },
	"late": func(context.Context, string) ([]byte, error) {
		return nil, fmt.Errorf("database: %w", context.DeadlineExceeded)
	},
	"longest": func(context.Context, string) ([]byte, error) { return make([]byte, MaxValue), nil },
	"longer":  func(context.Context, string) ([]byte, error) { return make([]byte, MaxValue+1), nil },
	"a b/c":   func(context.Context, string) ([]byte, error) { return []byte("odd"), nil },
}

func answer(method, target string) *httptest.ResponseRecorder {
	mux := http.NewServeMux()
	mux.Handle("/values/", http.StripPrefix("/values/", origin))
	recorder := httptest.NewRecorder()
	mux.ServeHTTP(recorder, httptest.NewRequest(method, target, nil))
	return recorder
}

func TestOriginAnswersByStatus(t *testing.T) {
	for _, row := range []struct {
		method, target string
		status         int
		content        string
	}{
		{"GET", "/values/echo?k=red", 200, "red"},
		{"GET", "/values/echo?k=", 200, ""},
		{"GET", "/values/echo?k=a+b", 200, "a+b"},
		{"GET", "/values/echo?k=%2E%2E%2F%2F%3Fk%3D%26%3B%25", 200, "..//?k=&;%"},
		{"GET", "/values/a%20b%2Fc?k=x", 200, "odd"},
		{"GET", "/values/none?k=x", 404, "no such key\n"},
		{"GET", "/values/nope?k=x", 404, "no such group\n"},
		{"GET", "/values/broken?k=x", 500, "the disk is full\n"},
		{"GET", "/values/late?k=x", 504, "database: context deadline exceeded\n"},
		{"GET", "/values/longer?k=x", 507, "value too long\n"},
		{"GET", "/values/echo", 400, "the query is not k=KEY\n"},
		{"GET", "/values/echo?key=x", 400, "the query is not k=KEY\n"},
		{"GET", "/values/echo?k=%zz", 400, "the query is not k=KEY\n"},
		{"POST", "/values/echo?k=x", 405, "method not allowed\n"},
	} {
		got := answer(row.method, row.target)
		if got.Code != row.status || got.Body.String() != row.content {
			t.Errorf("%s %s: %d %q, not %d %q", row.method, row.target, got.Code, got.Body, row.status, row.content)
		}
		if length := got.Header().Get("Content-Length"); length != strconv.Itoa(len(row.content)) {
			t.Errorf("%s %s: the length is %q, not %d", row.method, row.target, length, len(row.content))
		}
	}
	if got := answer("GET", "/values/longest?k=x"); got.Code != 200 || got.Body.Len() != MaxValue {
		t.Errorf("the longest value: %d, %d bytes", got.Code, got.Body.Len())
	}
}

func TestOriginAnswersHeadWithoutContent(t *testing.T) {
	server := httptest.NewServer(origin)
	defer server.Close()
	response, err := http.Head(server.URL + "/echo?k=red")
	if err != nil {
		t.Fatal(err)
	}
	response.Body.Close()
	if response.StatusCode != 200 || response.ContentLength != 3 {
		t.Errorf("%d, length %d", response.StatusCode, response.ContentLength)
	}
}

// A client that takes gzip gets none.
func TestOriginNeverCodes(t *testing.T) {
	server := httptest.NewServer(origin)
	defer server.Close()
	request, _ := http.NewRequest("GET", server.URL+"/longest?k=x", nil)
	request.Header.Set("Accept-Encoding", "gzip")
	response, err := http.DefaultTransport.RoundTrip(request)
	if err != nil {
		t.Fatal(err)
	}
	response.Body.Close()
	if response.Header.Get("Content-Encoding") != "" || response.ContentLength != MaxValue {
		t.Errorf("coding %q, length %d", response.Header.Get("Content-Encoding"), response.ContentLength)
	}
}

func TestOriginWords(t *testing.T) {
	want := []string{"a b=http://h:9/values/a%20b?k=", "colors=http://h:9/values/colors?k="}
	for _, base := range []string{"http://h:9/values/", "http://h:9/values"} {
		if got := (Origin{"colors": nil, "a b": nil}).Words(base); !reflect.DeepEqual(got, want) {
			t.Errorf("%q, not %q", got, want)
		}
	}
}
