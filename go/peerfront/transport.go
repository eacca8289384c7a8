package peerfront

import (
	"bytes"
	"io"
	"net"
	"net/http"
	"net/url"
	"strings"
	"time"
)

// Transport gives the transport by which groupcache asks peer_front. It keeps 64 idle connections to each server in place of two,
// for less time than the server does, and waits no longer than a second for a connection and 15 for a reply. Raise
// ResponseHeaderTimeout above peer_front's --timeout if that is longer.
//
// Make one, and return it each time:
//
//	transport := peerfront.Transport()
//	pool.Transport = func(context.Context) http.RoundTripper { return transport }
func Transport() *http.Transport {
	return &http.Transport{
		MaxIdleConnsPerHost:   64,
		IdleConnTimeout:       50 * time.Second, // peer_front closes a silent connection after 60 s
		ResponseHeaderTimeout: 15 * time.Second,
		DialContext:           (&net.Dialer{Timeout: time.Second}).DialContext,
		DisableCompression:    true,
	}
}

// A Miss is a request that a server gave no value for.
type Miss struct {
	Peer   string // the host and port of the server
	Group  string
	Key    string
	Status int    // of the reply, or 0 if there was none
	Text   string // the error in the reply, such as "no such key" or "origin timed out"
	Err    error  // why there was no reply, or nil
}

// maxText is the most bytes of an error that are read.
const maxText = 1 << 16

// Watch calls miss for each request that a server gives no value for, and hands all replies on. groupcache drops the text of an
// error and calls the program's own getter, so this is where a missing key and a service that is down can be told apart. Several
// requests may call miss at once.
func Watch(transport http.RoundTripper, miss func(Miss)) http.RoundTripper {
	return &watched{transport, miss}
}

type watched struct {
	transport http.RoundTripper
	miss      func(Miss)
}

func (w *watched) RoundTrip(r *http.Request) (*http.Response, error) {
	response, err := w.transport.RoundTrip(r)
	if err != nil {
		w.miss(missOf(r.URL, 0, "", err))
		return response, err
	}
	if response.StatusCode != http.StatusOK {
		text, readErr := io.ReadAll(io.LimitReader(response.Body, maxText))
		response.Body = bodyOf(text, response.Body)
		w.miss(missOf(r.URL, response.StatusCode, strings.TrimSuffix(string(text), "\n"), readErr))
	}
	return response, nil
}

// bodyOf gives a body that begins with what was read of it.
func bodyOf(read []byte, rest io.ReadCloser) io.ReadCloser {
	return struct {
		io.Reader
		io.Closer
	}{io.MultiReader(bytes.NewReader(read), rest), rest}
}

// missOf names the group and the key of a URL as groupcache asks for it: BASE/GROUP/KEY, both escaped as in a query.
func missOf(u *url.URL, status int, text string, err error) Miss {
	m := Miss{Peer: u.Host, Status: status, Text: text, Err: err}
	parts := strings.Split(u.EscapedPath(), "/")
	if len(parts) >= 2 {
		m.Group, _ = url.QueryUnescape(parts[len(parts)-2])
		m.Key, _ = url.QueryUnescape(parts[len(parts)-1])
	}
	return m
}
