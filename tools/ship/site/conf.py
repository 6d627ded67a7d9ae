# How Sphinx makes the site: tools/ship/site.sh.
project = "ecow, proved"
extensions = ["myst_parser"]
root_doc = "index"
html_theme = "furo"
html_title = "ecow, proved"
# Debian's Furo is dark by its button alone. What stands here is dark by the reader's system too.
html_theme_options = {"dark_css_variables": {
    "color-problematic": "#ee5151",
    "color-foreground-primary": "#ffffffcc",
    "color-foreground-secondary": "#9ca0a5",
    "color-foreground-muted": "#81868d",
    "color-foreground-border": "#666666",
    "color-background-primary": "#131416",
    "color-background-secondary": "#1a1c1e",
    "color-background-hover": "#1e2124ff",
    "color-background-hover--transparent": "#1e212400",
    "color-background-border": "#303335",
    "color-background-item": "#444444",
    "color-brand-primary": "#2b8cee",
    "color-brand-content": "#368ce2",
    "color-highlighted-background": "#083563",
    "color-highlight-on-target": "#333300",
}}
html_static_path = ["_static"]
html_css_files = ["site.css"]
html_copy_source = False
html_show_sphinx = False
html_show_copyright = False
html_use_index = False
html_domain_indices = False
myst_heading_anchors = 4
exclude_patterns = []
# A program that a page quotes may be of a language that nothing colours.
suppress_warnings = ["misc.highlighting_failure"]
