"""The relay for web pages: its words and its run (`program`), addresses and origins (`places`), the files that it serves
(`pages`), and what it does for each WebSocket (`connection`)."""
