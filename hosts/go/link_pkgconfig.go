//go:build wathread_pkgconfig

package wathread

// #cgo pkg-config: wathread
import "C"
