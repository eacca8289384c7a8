package peerfront

import (
	"context"
	"errors"
)

// The first byte of a tagged value.
const (
	tagMissing = 0
	tagFound   = 1
)

// ErrNotTagged is the error of Untag for bytes that Tagged did not make.
var ErrNotTagged = errors.New("peerfront: not a tagged value")

// Tagged gives a getter whose values begin with a byte that tells found from missing. A missing key is a value then, so peer_front
// keeps it, and it is no error for groupcache. Read its values by [Untag]. The byte counts for [MaxValue].
func Tagged(getter Getter) Getter {
	return func(ctx context.Context, key string) ([]byte, error) {
		value, err := getter(ctx, key)
		switch {
		case errors.Is(err, ErrNotFound):
			return []byte{tagMissing}, nil
		case err != nil:
			return nil, err
		}
		tagged := make([]byte, 0, 1+len(value))
		return append(append(tagged, tagFound), value...), nil
	}
}

// Untag gives the value after the byte that [Tagged] put before it, or ErrNotFound for a missing key. It does not copy.
func Untag(tagged []byte) ([]byte, error) {
	switch {
	case len(tagged) == 1 && tagged[0] == tagMissing:
		return nil, ErrNotFound
	case len(tagged) > 0 && tagged[0] == tagFound:
		return tagged[1:], nil
	}
	return nil, ErrNotTagged
}
