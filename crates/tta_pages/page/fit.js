//# fit : the script of the size of letters, which follows the window, and of keys, which leaves those with Ctrl, Alt or Meta to the browser
let size=1;
function fit(){document.documentElement.style.fontSize=size*Math.max(12,Math.min(innerWidth/88,innerHeight/42))+'px';}
function resize(by){size=Math.max(.4,Math.min(4,size*by));fit();}
function onKeys(keys){
document.onkeydown=event=>{
if(event.ctrlKey||event.altKey||event.metaKey||!keys[event.key])return;
if(event.target.tagName=='INPUT'&&(event.target.type!='range'||event.key.length>1))return;
keys[event.key]();
event.preventDefault();
};
}
window.onresize=fit;
fit();
//# open_script : the end of the data, and where the script begins
</script>
<script>
//# end : the end of a page
</script>
</body>
</html>
