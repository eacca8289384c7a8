package peerfront

import (
	"bytes"
	"context"
	"errors"
	"testing"
)

func TestTaggedTellsFoundFromMissing(t *testing.T) {
	broken := errors.New("the disk is full")
	getter := Tagged(func(_ context.Context, key string) ([]byte, error) {
		switch key {
		case "none":
			return nil, ErrNotFound
		case "broken":
			return nil, broken
		}
		return []byte(key), nil
	})
	for _, key := range []string{"red", "", "\x00", "\x01"} {
		tagged, err := getter(context.Background(), key)
		if err != nil || !bytes.Equal(tagged, append([]byte{1}, key...)) {
			t.Errorf("%q: %q %v", key, tagged, err)
		}
		if value, err := Untag(tagged); err != nil || string(value) != key {
			t.Errorf("%q: untagged %q %v", key, value, err)
		}
	}
	tagged, err := getter(context.Background(), "none")
	if err != nil || !bytes.Equal(tagged, []byte{0}) {
		t.Errorf("a missing key: %q %v", tagged, err)
	}
	if _, err := Untag(tagged); err != ErrNotFound {
		t.Errorf("a missing key: untagged %v", err)
	}
	if _, err := getter(context.Background(), "broken"); err != broken {
		t.Errorf("another error: %v", err)
	}
	for _, odd := range [][]byte{nil, {}, {0, 1}, {2}, []byte("red")} {
		if _, err := Untag(odd); err != ErrNotTagged {
			t.Errorf("%q: %v", odd, err)
		}
	}
}
