addEventListener("load", () => {
    const told = document.getElementById("told");
    const picture = document.getElementById("picture");
    told.textContent = `${getComputedStyle(told).color} ${picture.naturalWidth}x${picture.naturalHeight}`;
});
