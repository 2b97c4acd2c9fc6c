//go:build !wathread_pkgconfig

package wathread

// #cgo CFLAGS: -I${SRCDIR}/../../include
// #cgo LDFLAGS: ${SRCDIR}/../../lib/libwathread.a
import "C"
