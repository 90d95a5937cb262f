"""From physics to a plant of soter's language: the modules behind `scripts/model`. Tested, not proved."""
