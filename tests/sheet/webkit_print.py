#!/usr/bin/env python3
"""Prints a page by WebKitGTK's own print operation, since its driver prints nothing: `webkit_print.py PAGE PDF MARGIN`, on A4, with so many millimetres
free at all edges. It needs a screen."""

import ctypes
import os
import sys
import time
from typing import Any, Dict, List

#: So many seconds it may take, on a machine that has much else to do.
PATIENCE = 600

#: The word of GTK for millimetres.
MILLIMETRES = 3

#: The things with an address that each library makes.
MADE: Dict[str, List[str]] = {
    'gtk-3': ['gtk_window_new', 'gtk_print_settings_new', 'gtk_page_setup_new', 'gtk_paper_size_new'],
    'webkit2gtk-4.1': ['webkit_web_view_new', 'webkit_print_operation_new'],
    'gobject-2.0': [],
}
gtk, webkit, gobject = (ctypes.CDLL(f'lib{name}.so.0') for name in MADE)
for library, names in zip((gtk, webkit), MADE.values()):
    for name in names:
        getattr(library, name).restype = ctypes.c_void_p


def made(library: Any, name: str, *words: Any) -> ctypes.c_void_p:
    return ctypes.c_void_p(getattr(library, name)(*words))


def until(is_so: Any) -> None:
    end = time.monotonic() + PATIENCE
    while not is_so():
        assert time.monotonic() < end, 'it takes too long'
        gtk.gtk_main_iteration_do(0)
        time.sleep(0.002)


def setup(margin: float) -> ctypes.c_void_p:
    """Of the paper."""
    found = made(gtk, 'gtk_page_setup_new')
    gtk.gtk_page_setup_set_paper_size(found, made(gtk, 'gtk_paper_size_new', b'iso_a4'))
    for edge in ('top', 'bottom', 'left', 'right'):
        getattr(gtk, f'gtk_page_setup_set_{edge}_margin')(found, ctypes.c_double(margin), MILLIMETRES)
    return found


def main(page: str, pdf: str, margin: str) -> None:
    gtk.gtk_init(None, None)
    window, view = made(gtk, 'gtk_window_new', 0), made(webkit, 'webkit_web_view_new')
    gtk.gtk_container_add(window, view)
    gtk.gtk_widget_show_all(window)
    webkit.webkit_web_view_load_uri(view, f'file://{os.path.abspath(page)}'.encode())
    until(lambda: not webkit.webkit_web_view_is_loading(view))
    settings = made(gtk, 'gtk_print_settings_new')
    for key, value in ((b'printer', b'Print to File'), (b'output-uri', f'file://{os.path.abspath(pdf)}'.encode()), (b'output-file-format', b'pdf')):
        gtk.gtk_print_settings_set(settings, key, value)
    operation = made(webkit, 'webkit_print_operation_new', view)
    webkit.webkit_print_operation_set_page_setup(operation, setup(float(margin)))
    webkit.webkit_print_operation_set_print_settings(operation, settings)
    ended: List[int] = []
    call = ctypes.CFUNCTYPE(None, ctypes.c_void_p, ctypes.c_void_p)(lambda *_: ended.append(1))
    gobject.g_signal_connect_data(operation, b'finished', call, None, None, 0)
    webkit.webkit_print_operation_print(operation)
    until(lambda: ended)


if __name__ == '__main__':
    main(sys.argv[1], sys.argv[2], sys.argv[3])
    # The processes that WebKit has begun end with its own.
    sys.stdout.flush()
    os._exit(0)  # pylint: disable=protected-access
