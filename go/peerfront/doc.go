// Package peerfront joins a Go program to peer_front, the server that stands in the place of groupcache's HTTP peers.
//
// peer_front asks an HTTP service for the values that its caches do not have. [Origin] makes such a service of the getters that a
// program has. [Transport] is how groupcache asks peer_front, and [Watch] tells why it got no value, which groupcache keeps to
// itself. [Tagged] and [Untag] have a missing key kept like a value.
//
// The package stands on Go's library alone.
package peerfront
